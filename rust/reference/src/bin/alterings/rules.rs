//! The rules of 9 to 14, Text's number ranges and longest runs, each broken in tables that are well laid out.

use crate::case::*;

pub fn cases() -> Vec<Case> {
    [names(), references(), empty(), ranges(), widths(), operands(), limits(), pieces(), runs(), trits(), kinds()].concat()
}

/// 9: a name twice, among pads, inputs, outputs; a pad, an input and an output may have one name, scopes and attributes any.
fn names() -> Vec<Case> {
    [
        Cases::of("&\"a\":1 = io\\n&\"b\":1 = io\\n")
            .bad([string(1, b'a')])
            .bad([string(0, b'b')])
            .good([string(0, b'b'), string(1, b'a')])
            .good([string(1, 0)])
            .all(),
        Cases::of("&\"a\":1 = io\\n&\"c\":1 = io\\n&\"b\":1 = io\\n").bad([string(2, b'a')]).bad([string(2, b'c')]).all(),
        Cases::of("%0:1 = input \"ax\"\\n%1:1 = input \"ay\"\\n").bad([string(3, b'x')]).good([string(3, b'z')]).all(),
        Cases::of("%0:0 = output \"a\" 1\\n%1:1 = buf 1\\n%2:0 = output \"b\" 1\\n").bad([string(1, b'a')]).all(),
        Cases::of("&\"a\":1 = io\\n%0:1 = input \"b\"\\n%1:0 = output \"c\" 1\\n").good([string(1, b'a'), string(2, b'a')]).all(),
        Cases::of("!0 = scope \"a\"\\n!1 = scope \"b\"\\n!2 = attr \"c\" \"d\"\\n")
            .good([string(1, b'a'), string(2, b'a'), string(3, b'a')])
            .all(),
        // two names become one when their lengths change
        Cases::of("&\"a\":1 = io\\n&\"ab\":1 = io\\n").bad([io(1, 1, 1)]).bad([io(1, 1, 1), string(2, 0)]).all(),
        Cases::of("\\{64|&\"\\#\":1 = io\\n}").bad([string(1, b'0')]).bad([string(117, b'0')]).all(),
    ]
    .concat()
}

/// 10: references to the row itself, to a later row, to no row, of the wrong kind.
fn references() -> Vec<Case> {
    [
        Cases::of("!0 = scope #0\\n!1 = source \"f\" (#0 #0) (#0 #0)\\n!2 = scope #2 in=!0 src=!1\\n!3 = scope #3\\n!4 = source \"g\" (#0 #0) (#0 #0)\\n")
            .bad([meta(2, 9, 4)])
            .bad([meta(2, 9, 3)])
            .bad([meta(2, 9, 6)])
            .bad([meta(2, 9, 2)])
            .bad([meta(2, 10, 5)])
            .bad([meta(2, 10, 1)])
            .bad([meta(2, 10, 3)])
            .bad([meta(0, 9, 1)])
            .bad([meta(0, 9, 4)])
            .good([meta(2, 9, 0)])
            .good([meta(2, 10, 0)])
            .good([meta(3, 9, 1)])
            .good([meta(3, 9, 3), meta(3, 10, 2)])
            .all(),
        Cases::of("!0 = scope \"s\"\\n!1 = ident \"i\" in=!0\\n!2 = scope \"t\"\\n")
            .bad([meta(1, 9, 0)])
            .bad([meta(1, 9, 3)])
            .bad([meta(1, 9, 2)])
            .bad([meta(2, 9, 2)])
            .good([meta(2, 9, 1)])
            .all(),
        // members: a later row, the set itself, a set, row 0 as none
        Cases::of("!0 = scope #0\\n!1 = scope #1\\n!2 = {!0 !1}\\n!3 = scope #3\\n!4 = {!0 !0}\\n")
            .bad([member(0, 4)])
            .bad([member(1, 3)])
            .bad([member(1, 0)])
            .bad([member(1, 6)])
            .bad([member(2, 3)])
            .bad([member(3, 5)])
            .good([member(0, 2), member(1, 1)])
            .good([member(3, 4)])
            .all(),
        // a cell's metadata: no such row
        Cases::of("!0 = scope #0\\n!1 = {!0 !0}\\n%0:1 = buf 1 !0\\n")
            .bad([cell(0, 4, 3)])
            .bad([cell(0, 4, 513)])
            .good([cell(0, 4, 2)])
            .good([cell(0, 4, 0)])
            .all(),
        Cases::of("%0:1 = buf 1\\n").bad([cell(0, 4, 1)]).all(),
    ]
    .concat()
}

/// 11: names that are empty, sets that are short. An attribute's string may be empty.
fn empty() -> Vec<Case> {
    [
        Cases::of("!0 = scope \"a\"\\n").bad([meta(0, 2, 0), meta(0, 3, 0), string(0, 0)]).all(),
        Cases::of("!0 = source \"a\" (#0 #0) (#0 #0)\\n").bad([meta(0, 2, 0), meta(0, 3, 0), string(0, 0)]).all(),
        Cases::of("!0 = scope #0\\n!1 = ident \"a\" in=!0\\n").bad([meta(1, 2, 0), meta(1, 3, 0), string(0, 0)]).all(),
        Cases::of("!0 = attr \"a\" 1\\n").bad([meta(0, 2, 0), meta(0, 3, 0), string(0, 0)]).all(),
        Cases::of("!0 = attr \"a\" #1\\n").bad([meta(0, 2, 0), meta(0, 3, 0), string(0, 0)]).all(),
        Cases::of("!0 = attr \"a\" \"b\"\\n")
            .bad([meta(0, 2, 0), meta(0, 3, 0), string(0, b'b'), string(1, 0)])
            .good([meta(0, 4, 0), string(1, 0)])
            .good([meta(0, 2, 2), meta(0, 3, 2), meta(0, 4, 0)])
            .all(),
        Cases::of("&\"a\":1 = io\\n").bad([io(0, 1, 0), string(0, 0)]).all(),
        Cases::of("%0:1 = input \"a\"\\n").bad([cell(0, 3, 0), string(0, 0)]).all(),
        Cases::of("%0:0 = output \"a\" 1\\n").bad([cell(0, 3, 0), string(0, 0)]).all(),
        Cases::of("!0 = scope #0\\n!1 = {!0 !0 !0}\\n")
            .good([meta(1, 6, 2), member(2, 0)])
            .bad([meta(1, 6, 1), member(1, 0), member(2, 0)])
            .bad([meta(1, 6, 0), member(0, 0), member(1, 0), member(2, 0)])
            .bad([meta(1, 6, 2)])
            .bad([meta(1, 6, 4)])
            .all(),
    ]
    .concat()
}

/// 11 and Text's number ranges: a source range with a negative number, or that ends before it starts; any number for scopes and attributes.
fn ranges() -> Vec<Case> {
    [
        Cases::of("!0 = source \"f\" (#5 #5) (#5 #5)\\n")
            .bad([meta(0, 15, 4)])
            .bad([meta(0, 14, 4)])
            .bad([meta(0, 12, 6)])
            .bad([meta(0, 13, 6)])
            .bad([meta(0, 15, 2_147_483_648)])
            .bad([meta(0, 14, 2_147_483_648)])
            .bad([meta(0, 12, 2_147_483_648)])
            .bad([meta(0, 13, 2_147_483_648)])
            .bad([meta(0, 13, u32::MAX), meta(0, 14, 6)])
            .good([meta(0, 15, 2_147_483_647)])
            .good([meta(0, 14, 6), meta(0, 15, 0)])
            .good([meta(0, 12, 4), meta(0, 13, 9)])
            .good([meta(0, 12, 0)])
            .all(),
        Cases::of("!0 = scope #0\\n!1 = attr \"a\" #0\\n")
            .good([meta(0, 11, u32::MAX)])
            .good([meta(0, 11, 2_147_483_648), meta(1, 11, 2_147_483_647)])
            .good([meta(1, 11, 2_147_483_648)])
            .all(),
    ]
    .concat()
}

/// 12: widths of 0 and 257, and each keyword's own rule.
fn widths() -> Vec<Case> {
    [
        Cases::of("&\"a\":1 = io\\n").bad([io(0, 2, 0)]).bad([io(0, 2, 257)]).good([io(0, 2, 256)]).all(),
        Cases::of("%0:1 = input \"a\"\\n").bad([cell(0, 1, 0)]).bad([cell(0, 1, 257)]).good([cell(0, 1, 256)]).all(),
        Cases::of("%0:256 = input \"a\"\\n%256:256 = buf %0:256\\n")
            .bad([cell(0, 1, 257)])
            .bad([cell(0, 1, 257), cell(1, 1, 257), run(0, 2, 257)])
            .bad([cell(1, 1, 255)])
            .bad([run(0, 2, 255)])
            .good([cell(1, 1, 255), run(0, 2, 255)])
            .all(),
        Cases::of("%0:256 = buf 1*256\\n")
            .bad([cell(0, 1, 257), run(0, 2, 257), run_trit(256, 1)])
            .bad([run(0, 2, 257), run_trit(256, 1)])
            .all(),
        Cases::of("!0 = attr \"a\" 1\\n").bad([meta(0, 8, 0), attr_trit(0, 0)]).bad([meta(0, 8, 0)]).good([meta(0, 8, 2)]).all(),
        Cases::of("!0 = attr \"a\" \\{256|1}\\n")
            .bad([meta(0, 8, 257)])
            .bad([meta(0, 8, 257), attr_trit(256, 1)])
            .bad([meta(0, 8, 255)])
            .all(),
        Cases::of("%0:0 = output \"y\" 1\\n")
            .bad([cell(0, 1, 1)])
            .bad([cell(0, 6, 0), run(0, 2, 0), run_trit(0, 0)])
            .good([run(0, 2, 2)])
            .all(),
        Cases::of("%0:0 = output \"y\" \\{256|1}\\n").bad([run(0, 2, 257)]).bad([run(0, 2, 257), run_trit(256, 1)]).all(),
        // an operand of 257 bits in two runs
        Cases::of("%0:2 = input \"a\"\\n%2:0 = output \"y\" [X*254 %0:2]\\n")
            .bad([run(0, 2, 255), run_trit(254, 2), cell(0, 1, 3), run(1, 2, 3)])
            .good([run(0, 2, 253), run_trit(253, 0), cell(0, 1, 3), run(1, 2, 3)])
            .all(),
    ]
    .concat()
}

/// 12: what the kind asks of its operands; `buf` of two bits as every other kind.
fn operands() -> Vec<Case> {
    [
        Cases::of("%0:2 = buf 10\\n")
            .good([cell(0, 0, 4)])
            .bad([cell(0, 0, 1)])
            .bad([cell(0, 0, 2)])
            .bad([cell(0, 0, 5)])
            .bad([cell(0, 0, 8)])
            .bad([cell(0, 1, 1)])
            .bad([cell(0, 1, 3)])
            .bad([cell(0, 6, 0)])
            .bad([cell(0, 6, 2)])
            .bad([cell(0, 7, 1)])
            .all(),
        Cases::of("%0:2 = and 10 01\\n")
            .good([cell(0, 0, 6)])
            .good([cell(0, 0, 7)])
            .bad([cell(0, 0, 3)])
            .bad([cell(0, 0, 8)])
            .bad([cell(0, 0, 9)])
            .bad([cell(0, 0, 10)])
            .good([cell(0, 0, 10), cell(0, 1, 1)])
            .bad([cell(0, 7, 0)])
            .bad([cell(0, 6, 2), cell(0, 7, 0)])
            .bad([run(0, 2, 1), run(1, 1, 1), run(1, 2, 3)])
            .all(),
        Cases::of("%0:1 = eq 10 01\\n")
            .good([cell(0, 0, 11)])
            .good([cell(0, 0, 12)])
            .bad([cell(0, 0, 5)])
            .bad([cell(0, 1, 2)])
            .bad([run(0, 2, 3), run(1, 1, 3), run(1, 2, 1)])
            .all(),
        Cases::of("%0:2 = mux 1 10 01\\n")
            .bad([cell(0, 0, 9)])
            .bad([cell(0, 1, 1)])
            .bad([run(0, 2, 2), run(1, 1, 2), run(1, 2, 1)])
            .bad([cell(0, 8, 0)])
            .all(),
        Cases::of("%0:2 = adc 1 0 X\\n")
            .bad([cell(0, 0, 8)])
            .good([cell(0, 0, 8), cell(0, 1, 1)])
            .bad([cell(0, 1, 1)])
            .bad([cell(0, 1, 3)])
            .bad([cell(0, 8, 0)])
            .bad([run(2, 2, 2)])
            .all(),
        Cases::of("%0:1 = input \"a\"\\n").bad([cell(0, 6, 1)]).bad([cell(0, 0, 2)]).bad([cell(0, 0, 3)]).all(),
        // a bit moved from one operand to the next
        Cases::of("%0:1 = mux %0 %0 %0\\n")
            .bad([cell(0, 6, 2), cell(0, 8, 0)])
            .bad([cell(0, 7, 2), cell(0, 8, 0)])
            .bad([cell(0, 7, 0), cell(0, 8, 2)])
            .all(),
    ]
    .concat()
}

/// 13: strings of 256 bytes, 4,097 declared cell bits, 4,097 output bits, 4,097 runs.
fn limits() -> Vec<Case> {
    [
        Cases::of("!0 = attr \"a\" \"\\{255|b}\"\\n")
            .bad([meta(0, 2, 256), meta(0, 3, 256), meta(0, 4, 0)])
            .good([meta(0, 2, 255), meta(0, 3, 255), meta(0, 4, 1)])
            .good([meta(0, 2, 2), meta(0, 3, 2), meta(0, 4, 254)])
            .all(),
        Cases::of("!0 = attr \"a\" \"\\{255|b}\"\\n&\"c\":1 = io\\n").bad([meta(0, 4, 256), io(0, 0, 257), string(257, b'd')]).all(),
        Cases::of("&\"\\{255|b}\":1 = io\\n").bad([io(0, 1, 256), string(255, b'b')]).bad([io(0, 1, 254)]).good([io(0, 1, 254), string(254, 0)]).all(),
        Cases::of("%0:1 = input \"\\{255|b}\"\\n").bad([cell(0, 3, 256), string(255, b'b')]).all(),
        Cases::of("\\{15|%\\#:256 = input \"\\#\"\\n}%15:255 = input \"x\"\\n").good([cell(15, 1, 256)]).all(),
        Cases::of("\\{15|%\\#:256 = input \"\\#\"\\n}%15:255 = input \"x\"\\n%16:1 = input \"y\"\\n")
            .bad([cell(15, 1, 256)])
            .bad([cell(16, 1, 2)])
            .good([cell(15, 1, 254), cell(16, 1, 2)])
            .all(),
        Cases::of("%0:256 = input \"a\"\\n\\{15|%1\\#:0 = output \"\\#\" %0:256\\n}%1:0 = output \"x\" %0:255\\n").good([run(15, 2, 256)]).all(),
        Cases::of("%0:256 = input \"a\"\\n\\{15|%1\\#:0 = output \"\\#\" %0:256\\n}%1:0 = output \"x\" %0:255\\n%2:0 = output \"y\" %0\\n")
            .bad([run(15, 2, 256)])
            .bad([run(16, 2, 2)])
            .good([run(15, 2, 254), run(16, 2, 2)])
            .all(),
        // 4,096 runs; one run more is past the region
        Cases::of("\\{16|%\\#:0 = output \"\\#\" %16*256\\n}%16:1 = input \"a\"\\n").bad([cell(15, 6, 257)]).bad([cell(15, 6, 255)]).bad([cell(14, 6, 257), cell(15, 5, 3_841), cell(15, 6, 255)]).all(),
        Cases::of("%0:1 = buf 1\\n").bad([cell(0, 6, 4_097)]).bad([cell(0, 5, 4_096)]).bad([cell(0, 6, 257)]).all(),
    ]
    .concat()
}

/// 14: a piece past its cell's width, of no cell, of an output.
fn pieces() -> Vec<Case> {
    [
        Cases::of("%0:4 = input \"a\"\\n%4:4 = buf %0:4\\n")
            .bad([run(0, 1, 1)])
            .bad([run(0, 1, 4)])
            .bad([run(0, 1, 256)])
            .bad([run(0, 1, u32::MAX)])
            .bad([run(0, 1, u32::MAX - 3)])
            .bad([cell(0, 1, 3)])
            .good([cell(0, 1, 5)])
            .good([cell(0, 1, 5), run(0, 1, 1)])
            .good([run(0, 0, 2)])
            .bad([run(0, 0, 3)])
            .bad([run(0, 0, 512)])
            .bad([run(0, 0, 513)])
            .bad([run(0, 0, u32::MAX)])
            .all(),
        Cases::of("%0:4 = input \"a\"\\n%4:1 = buf %0+3\\n").bad([run(0, 1, 4)]).good([run(0, 1, 0)]).bad([cell(0, 1, 3)]).all(),
        Cases::of("%0:4 = input \"a\"\\n%4:8 = input \"b\"\\n%12:4 = buf %4+4:4\\n")
            .bad([run(0, 0, 1)])
            .bad([run(0, 1, 5)])
            .good([run(0, 0, 1), run(0, 1, 0)])
            .all(),
        // the next cell's bits are not this one's
        Cases::of("%0:1 = input \"a\"\\n%1:1 = input \"b\"\\n%2:2 = buf [%0 %1]\\n")
            .bad([cell(2, 6, 1), run(0, 2, 2), run(1, 0, 0), run(1, 2, 0)])
            .good([run(0, 0, 2), run(1, 0, 1)])
            .all(),
        Cases::of("%0:0 = output \"y\" %1\\n%1:1 = input \"a\"\\n").bad([run(0, 0, 1)]).all(),
    ]
    .concat()
}

/// "with operands held as longest runs": runs that could join, and runs of no width.
fn runs() -> Vec<Case> {
    [
        Cases::of("%0:2 = input \"a\"\\n%2:2 = buf %0:2\\n")
            .bad([cell(1, 6, 2), run(0, 1, 1), run(0, 2, 1), run(1, 0, 1), run(1, 2, 1)])
            .good([cell(1, 6, 2), run(0, 2, 1), run(1, 0, 1), run(1, 1, 1), run(1, 2, 1)])
            .good([cell(1, 6, 2), run(0, 2, 1), run(1, 0, 1), run(1, 2, 1)])
            .all(),
        Cases::of("%0:2 = buf 10\\n").bad([cell(0, 6, 2), run(0, 2, 1), run(1, 1, 1), run(1, 2, 1)]).all(),
        Cases::of("%0:4 = input \"a\"\\n%4:4 = buf [%0:2 %0+2:2]\\n")
            .bad([run(0, 1, 2), run(1, 1, 0)])
            .good([run(1, 1, 1)])
            .all(),
        Cases::of("%0:3 = buf [1 %0 0]\\n")
            .bad([run(1, 0, 0), run(1, 1, 1), run(2, 1, 2), run_trit(1, 1)])
            .good([run_trit(0, 2), run_trit(1, 2)])
            .all(),
        Cases::of("%0:2 = buf [%0+1 %2]\\n%2:2 = buf 11\\n")
            .bad([run(1, 0, 1)])
            .bad([run(0, 0, 2)])
            .good([run(0, 0, 2), run(1, 0, 1)])
            .all(),
        // a run of no width, before, behind and between others
        Cases::of("%0:1 = buf 1\\n")
            .bad([cell(0, 6, 2), run(1, 0, 1)])
            .bad([cell(0, 6, 2), run(1, 1, 1)])
            .bad([run(0, 2, 0)])
            .all(),
        Cases::of("%0:2 = buf [%0 %0]\\n").bad([run(0, 2, 0), run(1, 2, 2)]).bad([run(1, 2, 0), run(0, 2, 2)]).all(),
        // neighbours of two operands stay two runs
        Cases::of("%0:2 = input \"a\"\\n%2:1 = and %0+1 %0\\n")
            .bad([cell(1, 7, 0), run(0, 1, 0), run(0, 2, 2), run(1, 0, 0), run(1, 2, 0)])
            .all(),
    ]
    .concat()
}

/// A constant bit of 3.
fn trits() -> Vec<Case> {
    [
        Cases::of("!0 = attr \"a\" 01X\\n")
            .bad([attr_trit(0, 3)])
            .bad([attr_trit(1, 3)])
            .bad([attr_trit(2, 3)])
            .bad([attr_trit(2, 255)])
            .good([attr_trit(0, 2), attr_trit(1, 0), attr_trit(2, 1)])
            .all(),
        Cases::of("%0:3 = buf 01X\\n")
            .bad([run_trit(0, 3)])
            .bad([run_trit(1, 3)])
            .bad([run_trit(2, 3)])
            .bad([run_trit(2, 255)])
            .good([run_trit(0, 2), run_trit(1, 0), run_trit(2, 1)])
            .all(),
        Cases::of("%0:256 = adc 0*255 1*255 X\\n").bad([run_trit(510, 3)]).bad([run_trit(255, 3)]).good([run_trit(510, 0)]).all(),
        Cases::of("!0 = attr \"a\" \\{256|0}\\n!1 = attr \"b\" \\{256|1}\\n")
            .bad([attr_trit(511, 3)])
            .bad([attr_trit(0, 128)])
            .good([attr_trit(0, 2)])
            .all(),
    ]
    .concat()
}

/// Kinds that there are not, and kinds whose fields are others.
fn kinds() -> Vec<Case> {
    let mut cases = Vec::new();
    let mut scope = Cases::of("!0 = scope \"a\"\\n");
    for kind in [0, 1, 2, 4, 5, 6, 9, 255, u32::MAX] {
        // a source whose four numbers are 0, and an attribute with an integer or an empty string, are well laid out here
        scope = if kind == 2 { scope.good([meta(0, 0, kind)]) } else { scope.bad([meta(0, 0, kind)]) };
    }
    cases.extend(scope.good([meta(0, 0, 7)]).good([meta(0, 0, 8)]).all());
    let mut set = Cases::of("!0 = scope #0\\n!1 = {!0 !0}\\n");
    for kind in [0, 2, 3, 4, 5, 6, 7, 8, 9] {
        set = set.bad([meta(1, 0, kind)]);
    }
    cases.extend(set.all());
    let mut buf = Cases::of("%0:1 = buf 1\\n");
    for kind in [0, 1, 2, 5, 8, 9, 10, 13, 255, u32::MAX] {
        buf = buf.bad([cell(0, 0, kind)]);
    }
    cases.extend(buf.good([cell(0, 0, 4)]).all());
    cases
}
