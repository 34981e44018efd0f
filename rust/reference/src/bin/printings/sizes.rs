//! Large netlists: Room's limits used up, and canonical texts around and past 65,536 bytes, which are printed whole.

use crate::case::{listed, pair, same, Answer, Case};

pub fn cases() -> Vec<Case> {
    let mut cases = listed(LIMITS);
    cases.extend(widths());
    cases.extend(around());
    cases.extend(past());
    cases.extend(pieces());
    cases.push(strings());
    cases
}

const LIMITS: &str = r##"
same \{512|!\# = scope #\#\n}
\{511|!1\# = scope #-01\#\n}!9999 = scope #-0\n => \{511|!\# = scope #-1\#\n}!511 = scope #0\n
same \{512|!\# = attr "a\#" "\#"\n}
!9 = scope #0\n!1 = {\{1024|!9\n}}\n => !0 = scope #0\n!1 = {\{1023|!0 }!0}\n
same \{64|&"\#":256 = io\n}
same \{512|%\#:1 = input "\#"\n}
\{512|%1\#:0 = output "\#" [%1\#:0 1]\n} => \{512|%\#:0 = output "\#" 1\n}
same \{512|%\#:1 = mux %\# %\# %\#\n}
"##;

/// 512 cells of 8 bits, all 4,096 bits that Room gives to cells.
fn widths() -> Vec<Case> {
    let twin: String = (0..512).map(|row| format!("%{}:8 = buf %{}:8\\n", 8 * row, 8 * (511 - row))).collect();
    let odd: String = (0..512).map(|row| format!("%{row}:8=buf[%{}:8]\\n", 511 - row)).collect();
    pair(odd, twin)
}

/// Cells with so many constant bits that the canonical text has from 65,535 to 65,537 bytes, and 68,816.
fn around() -> Vec<Case> {
    let bits = "X".repeat(256);
    let mut cases = Vec::new();
    for (rows, rest) in [(124, 130), (124, 131), (124, 132), (130, 255)] {
        let names = format!("%{rows}:1 = input \"\\{{255|a}}\"\\n%{}:1 = input \"\\{{{rest}|b}}\"\\n", rows + 1);
        cases.extend(pair(
            format!("\\{{{rows}|%\\#:1 = eq X*256 X*256\\n}}{names}"),
            format!("\\{{{rows}|%\\#:1 = eq {bits} {bits}\\n}}{names}"),
        ));
    }
    cases
}

/// Canonical texts far past 65,536 bytes, whose twins no text can be.
fn past() -> Vec<Case> {
    let bits = "X".repeat(256);
    let cells = "\\{512|%\\#:1 = eq X*256 X*256\\n}";
    let shown: String = (0..512).map(|row| format!("%{row}:1 = eq {bits} {bits}\n")).collect();
    let attrs: String = (0..180).map(|row| format!("!{row} = attr \"a\" {bits}\n")).collect();
    let scopes: String = (0..64).map(|row| format!("!{row} = scope \"{}\"\n", "\\ff".repeat(255))).collect();
    let case = |line: String, text: String| Case { line, answer: Answer::Prints(text.into_bytes()) };
    vec![
        case(cells.into(), shown.clone()),
        case(format!("\\{{180|!\\# = attr \"a\" {bits}\\n}}{cells}"), attrs + &shown),
        case(format!("\\{{64|!\\# = scope \"{}\"\\n}}{cells}", "\\\\ff".repeat(255)), scopes + &shown),
    ]
}

/// 4,096 runs over a cell of a large number.
fn pieces() -> Vec<Case> {
    let (mut odd, mut twin) = (String::new(), String::new());
    for row in 0..15 {
        odd += &format!("%{row}:256 = input \"{row}\"\\n");
        twin += &format!("%{}:256 = input \"{row}\"\\n", 256 * row);
    }
    odd += "%99:254 = input \"z\"\\n";
    twin += "%3840:254 = input \"z\"\\n";
    for row in 0..16 {
        let (number, offset) = (4_094 + row, 200 + row);
        odd += &format!("%{}:0 = output \"{row}\" [\\{{128|%99 %99+{offset} }}]\\n", 999 - row);
        twin += &format!("%{number}:0 = output \"{row}\" [\\{{127|%3840+0 %3840+{offset} }}%3840+0 %3840+{offset}]\\n");
    }
    let whole = |number: u32, operand: &str| format!("\\{{16|%\\#:0 = output \"\\#\" {operand}\\n}}%{number}:1 = input \"a\"\\n");
    let mut cases = pair(odd, twin);
    cases.extend(pair(whole(65_535, "%65535*256"), whole(16, &format!("[{}]", vec!["%16"; 256].join(" ")))));
    cases
}

/// All 16,384 bytes of strings, each printed as three.
fn strings() -> Case {
    same(format!("\\{{64|!\\# = scope \"{}\"\\n}}!64 = scope \"\\{{64|\\\\00}}\"\\n", "\\\\00".repeat(255)))
}
