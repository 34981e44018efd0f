//! Every field of every kind of row: what a kind does not use must be 0, and no used field but a number may be 4,294,967,295.

use crate::case::*;

pub fn cases() -> Vec<Case> {
    [metas(), ios(), cells(), runs()].concat()
}

/// One row of each kind, from row 0 on: two kinds of scope, a source, a set, an ident, three kinds of attribute.
const METAS: &str =
    "!0 = scope \"a\"\\n!1 = scope #1\\n!2 = source \"f\" (#1 #2) (#3 #4)\\n!3 = {!0 !1}\\n!4 = ident \"i\" in=!0\\n\
                     !5 = attr \"b\" 1\\n!6 = attr \"c\" #1\\n!7 = attr \"d\" \"e\"\\n";

/// The fields that a row's kind has no use for, by the table of `docs/LAYOUT.md`.
fn idle(kind: &str) -> &'static [usize] {
    match kind {
        "set" => &[2, 4, 8, 9, 10, 11, 12, 13, 14, 15],
        "source" => &[4, 6, 8, 9, 10, 11],
        "scope" => &[4, 6, 8, 11, 12, 13, 14, 15],
        "indexed" => &[2, 4, 6, 8, 12, 13, 14, 15],
        "ident" => &[4, 6, 8, 10, 11, 12, 13, 14, 15],
        "bits" => &[4, 6, 9, 10, 11, 12, 13, 14, 15],
        "integer" => &[4, 6, 8, 9, 10, 12, 13, 14, 15],
        "string" => &[6, 8, 9, 10, 11, 12, 13, 14, 15],
        _ => unreachable!(),
    }
}

fn metas() -> Vec<Case> {
    let kinds = ["scope", "indexed", "source", "set", "ident", "bits", "integer", "string"];
    let mut cases = Cases::of(METAS);
    for (row, kind) in kinds.into_iter().enumerate() {
        for &field in idle(kind) {
            cases = cases.bad([meta(row, field, 1)]);
        }
        for field in 0..16 {
            let number = field == 11 && matches!(kind, "indexed" | "integer");
            let altered = [meta(row, field, u32::MAX)];
            cases = if number { cases.good(altered) } else { cases.bad(altered) };
        }
    }
    for place in 0..2 {
        cases = cases.bad([member(place, u32::MAX)]);
    }
    cases.all()
}

fn ios() -> Vec<Case> {
    let mut cases = Cases::of("&\"a\":1 = io\\n&\"b\":256 = io\\n");
    for row in 0..2 {
        for field in 0..3 {
            cases = cases.bad([io(row, field, u32::MAX)]).bad([io(row, field, 65_536)]);
        }
    }
    cases.all()
}

/// One row of each kind, in the order of their numbers.
const CELLS: &str = "%0:1 = input \"a\"\\n%1:0 = output \"y\" 1\\n%2:1 = buf 1\\n%3:1 = not 1\\n%4:1 = and 1 1\\n%5:1 = or 1 1\\n\
                     %6:1 = xor 1 1\\n%7:1 = mux 1 1 1\\n%8:2 = adc 1 1 1\\n%10:1 = eq 1 1\\n%11:1 = ult 1 1\\n%12:1 = slt 1 1\\n";

fn cells() -> Vec<Case> {
    let operands = [0, 1, 1, 1, 2, 2, 2, 3, 3, 2, 2, 2];
    let mut cases = Cases::of(CELLS);
    for (row, operands) in operands.into_iter().enumerate() {
        for field in 0..9 {
            cases = cases.bad([cell(row, field, u32::MAX)]);
        }
        // a name where none belongs, metadata that is not there, runs of operands that the kind has not
        if row > 1 {
            cases = cases.bad([cell(row, 3, 1)]);
        }
        cases = cases.bad([cell(row, 4, 1)]);
        for operand in operands..3 {
            cases = cases.bad([cell(row, 6 + operand, 1)]);
        }
        // one run less, one more
        for operand in 0..operands {
            cases = cases.bad([cell(row, 6 + operand, 0)]).bad([cell(row, 6 + operand, 2)]);
        }
    }
    cases.all()
}

fn runs() -> Vec<Case> {
    let mut cases = Cases::of("%0:2 = mux 1 [%1+1 %0] [X %0+1]\\n%1:2 = buf %0:2\\n");
    for row in 0..6 {
        for field in 0..3 {
            cases = cases.bad([run(row, field, u32::MAX)]).bad([run(row, field, 65_536)]);
        }
    }
    cases.all()
}
