//! Where things lie: counts and regions, gaps and sharing in the pools, starts, places that nothing uses.

use crate::case::*;

pub fn cases() -> Vec<Case> {
    [counts(), gaps(), sharing(), starts(), unused()].concat()
}

/// A count of rows that the tables do not hold: one too many or too few, and 513 rows' worth.
fn counts() -> Vec<Case> {
    [
        Cases::of("\\{512|!\\# = scope #\\#\\n}").bad([word(0, 513)]).bad([word(0, 511)]).bad([word(0, 0)]).all(),
        Cases::of("\\{64|&\"\\#\":1 = io\\n}").bad([word(1, 65)]).bad([word(1, 63)]).bad([word(1, 513)]).all(),
        Cases::of("\\{512|%\\#:1 = buf 1\\n}").bad([word(2, 513)]).bad([word(2, 511)]).bad([word(2, 0)]).all(),
        Cases::of("!0 = scope #0\\n&\"a\":1 = io\\n%0:1 = buf 1\\n")
            .bad([word(0, 2)])
            .bad([word(0, 0)])
            .bad([word(0, 513)])
            .bad([word(0, u32::MAX)])
            .bad([word(1, 2)])
            .bad([word(1, 0)])
            .bad([word(1, 65)])
            .bad([word(1, u32::MAX)])
            .bad([word(2, 2)])
            .bad([word(2, 0)])
            .bad([word(2, 513)])
            .bad([word(2, u32::MAX)])
            .all(),
        Cases::of("\\n").bad([word(0, 1)]).bad([word(1, 1)]).bad([word(2, 1)]).all(),
        // members: one past the 1,024 of the region
        Cases::of("!0 = scope #0\\n!1 = {\\{1024|!0 }}\\n")
            .bad([meta(1, 6, 1_025)])
            .bad([meta(1, 6, 1_023)])
            .good([meta(1, 6, 1_023), member(1_023, 0)])
            .all(),
        // a row that does not stand at the front of its region
        Cases::of("!0 = scope #5\\n").bad([meta(0, 0, 0), meta(0, 11, 0), meta(1, 0, 4), meta(1, 11, 5)]).all(),
        Cases::of("%0:1 = buf 1\\n")
            .bad([cell(0, 0, 0), cell(0, 1, 0), cell(0, 6, 0), cell(1, 0, 3), cell(1, 1, 1), cell(1, 6, 1)])
            .all(),
    ]
    .concat()
}

/// A gap in a pool: all is there, but one place too far behind.
fn gaps() -> Vec<Case> {
    [
        // strings: names of pads, of scopes, a name and its second string, a cell's name
        Cases::of("&\"b\":1 = io\\n&\"c\":1 = io\\n")
            .bad([io(1, 0, 2), string(1, 0), string(2, b'c')])
            .bad([io(0, 0, 1), io(1, 0, 2), string(0, 0), string(1, b'b'), string(2, b'c')])
            .all(),
        Cases::of("!0 = scope \"b\"\\n!1 = scope \"c\"\\n")
            .bad([meta(1, 1, 2), meta(1, 3, 3), string(1, 0), string(2, b'c')])
            .all(),
        Cases::of("!0 = attr \"b\" \"c\"\\n").bad([meta(0, 3, 2), string(1, 0), string(2, b'c')]).all(),
        Cases::of("&\"b\":1 = io\\n%0:1 = input \"c\"\\n").bad([cell(0, 2, 2), string(1, 0), string(2, b'c')]).all(),
        Cases::of("%0:1 = input \"b\"\\n%1:1 = input \"c\"\\n").bad([cell(1, 2, 2), string(1, 0), string(2, b'c')]).all(),
        // members
        Cases::of("!0 = scope #0\\n!1 = {!0 !0}\\n!2 = {!0 !0}\\n")
            .bad([meta(2, 5, 3), member(2, 0), member(4, 1)])
            .bad([meta(2, 5, 3), member(4, 1)])
            .all(),
        // trits of attributes
        Cases::of("!0 = attr \"a\" 1\\n!1 = attr \"a\" X\\n").bad([meta(1, 7, 2), attr_trit(1, 0), attr_trit(2, 2)]).all(),
        // runs
        Cases::of("%0:1 = buf 1\\n%1:1 = buf %0\\n")
            .bad([cell(1, 5, 2), run(1, 0, 0), run(1, 2, 0), run(2, 0, 1), run(2, 2, 1)])
            .all(),
        // trits of runs
        Cases::of("%0:1 = buf 1\\n%1:1 = buf X\\n").bad([run(1, 1, 2), run_trit(1, 0), run_trit(2, 2)]).all(),
    ]
    .concat()
}

/// Things said twice that lie once.
fn sharing() -> Vec<Case> {
    [
        Cases::of("&\"a\":1 = io\\n%0:1 = input \"a\"\\n").bad([cell(0, 2, 0), string(1, 0)]).bad([cell(0, 2, 0)]).all(),
        Cases::of("!0 = scope \"a\"\\n!1 = scope \"a\"\\n")
            .bad([meta(1, 1, 0), meta(1, 3, 1), string(1, 0)])
            .bad([meta(1, 1, 0)])
            .all(),
        Cases::of("!0 = attr \"a\" \"a\"\\n").bad([meta(0, 3, 0), string(1, 0)]).bad([meta(0, 3, 0)]).all(),
        Cases::of("%0:1 = input \"a\"\\n%1:0 = output \"a\" 1\\n").bad([cell(1, 2, 0), string(1, 0)]).all(),
        // a name that is the end of a longer one
        Cases::of("&\"ab\":1 = io\\n&\"b\":1 = io\\n").bad([io(1, 0, 1), string(2, 0)]).all(),
        Cases::of("!0 = scope #0\\n!1 = {!0 !0}\\n!2 = {!0 !0}\\n").bad([meta(2, 5, 0), member(2, 0), member(3, 0)]).all(),
        Cases::of("!0 = attr \"a\" X\\n!1 = attr \"a\" X\\n").bad([meta(1, 7, 0), attr_trit(1, 0)]).all(),
        Cases::of("%0:1 = buf 1\\n%1:1 = buf 1\\n")
            .bad([cell(1, 5, 0), run(1, 1, 0), run(1, 2, 0), run_trit(1, 0)])
            .bad([run(1, 1, 0), run_trit(1, 0)])
            .bad([run(1, 1, 0)])
            .all(),
    ]
    .concat()
}

/// Starts that are not the running total, also where what they start is empty.
fn starts() -> Vec<Case> {
    [
        Cases::of(
            "!0 = scope \"ab\"\\n!1 = scope #0\\n!2 = attr \"c\" \"\"\\n&\"d\":1 = io\\n%0:1 = buf 1\\n%1:1 = input \"e\"\\n",
        )
        .bad([meta(0, 1, 1)])
        .bad([meta(0, 3, 0)])
        .bad([meta(1, 1, 0)])
        .bad([meta(1, 1, 3)])
        .bad([meta(1, 3, 0)])
        .bad([meta(2, 1, 0)])
        .bad([meta(2, 3, 0)])
        .bad([meta(2, 3, 4)])
        .bad([io(0, 0, 0)])
        .bad([io(0, 0, 4)])
        .bad([io(0, 0, 16_384)])
        .bad([cell(0, 2, 0)])
        .bad([cell(0, 2, 5)])
        .bad([cell(1, 2, 0)])
        .bad([cell(1, 2, 5)])
        .bad([cell(1, 5, 0)])
        .bad([cell(1, 5, 2)])
        .all(),
        Cases::of("!0 = scope #0\\n!1 = {!0 !0}\\n!2 = attr \"a\" 1\\n!3 = scope #1\\n")
            .bad([meta(0, 5, 1)])
            .bad([meta(1, 5, 1)])
            .bad([meta(2, 5, 0)])
            .bad([meta(2, 5, 1)])
            .bad([meta(3, 5, 0)])
            .bad([meta(1, 7, 1)])
            .bad([meta(2, 7, 1)])
            .bad([meta(3, 7, 0)])
            .all(),
        Cases::of("%0:1 = buf 1\\n%1:1 = input \"a\"\\n%2:1 = buf %0\\n%3:1 = buf X\\n")
            .bad([cell(0, 5, 1)])
            .bad([cell(1, 5, 0)])
            .bad([cell(2, 5, 0)])
            .bad([cell(3, 5, 1)])
            .bad([run(0, 1, 1)])
            .bad([run(2, 1, 0)])
            .bad([run(2, 1, 2)])
            .all(),
    ]
    .concat()
}

/// "Unused places hold zero": the first and the last behind what each region holds. Past the fixed lengths nothing counts.
fn unused() -> Vec<Case> {
    let text = "!0 = scope \"a\"\\n!1 = {!0 !0}\\n!2 = attr \"b\" 1\\n&\"c\":1 = io\\n%0:1 = buf X\\n";
    let mut cases = Cases::of(text).good([word(26_307, 1)]).good([string(16_384, 1)]).good([attr_trit(393_728, 3)]).good([
        word(26_307, 0),
        string(16_384, 0),
        attr_trit(393_728, 0),
    ]);
    for place in
        [3 + 48, 3 + 48 + 15, 8_194, 8_195 + 2, 9_218, 9_219 + 3, 9_410, 9_411 + 9, 14_018, 14_019 + 3, 14_019 + 5, 26_306]
    {
        cases = cases.bad([word(place, 1)]);
    }
    for place in [3, 4, 255, 16_383] {
        cases = cases.bad([string(place, 1)]);
    }
    for place in [1, 2, 131_071, 131_073, 393_727] {
        cases = cases.bad([attr_trit(place, 1)]);
    }
    let mut empty = Cases::of("\\n");
    for place in [3, 8_194, 8_195, 9_218, 9_219, 9_410, 9_411, 14_018, 14_019, 26_306] {
        empty = empty.bad([word(place, 1)]);
    }
    empty = empty
        .bad([string(0, 1)])
        .bad([string(16_383, 255)])
        .bad([attr_trit(0, 1)])
        .bad([run_trit(0, 1)])
        .bad([run_trit(262_655, 2)]);
    [cases.all(), empty.all()].concat()
}
