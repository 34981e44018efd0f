//! Runs of lists that are good or nearly so, with the output bits and slots worked out by hand.

use crate::hex::said;
use crate::kinds::SUM_LIST;
use reference::cases::{listed, Case};

pub fn cases() -> Vec<Case> {
    let mut cases = Vec::new();
    for (setting, gates) in GATES {
        let [and, or, xor] = [1, 2, 3].map(|place| &gates[place..=place]);
        let slots = format!("01X{setting}{xor}{xor}{and}{or}0{and}{xor}{and}");
        cases.push(Case::new(format!("run {setting} |{SUM_LIST}"), format!("{xor}{and}, slots {slots}")));
        let line = format!("run {setting} |{}", said(EVERY_GATE));
        cases.push(Case::new(line, format!("{gates}, slots 01X{setting}{gates}{gates}")));
    }
    let settings = ["", "0", "1", "000", "0000", "3", "03", "30", "33", "1X3"];
    cases.extend(settings.map(|setting| Case::new(format!("run {setting} |{SUM_LIST}"), "refused 23 at 0")));
    cases.extend(listed(LISTS).map(|(line, answer)| told(line, answer)));
    cases.extend(listed(LONG).map(|(line, answer)| Case::new(line, answer)));
    cases.push(Case::begins(format!("{HIGH}4753050000012b01 475308002c010000"), "1, slots 302 bits, sum "));
    cases.push(Case::new(format!("{HIGH}4753050000012c01"), "refused 22 at 2400"));
    cases.push(Case::new(format!("{HIGH}475305002c010000"), "refused 22 at 2400"));
    cases
}

/// Every operation: the gates of the two inputs, each given out.
const EVERY_GATE: &str = "0, 1, X, in 0, in 1, not 3, and 3 4, or 3 4, xor 3 4, out 5 0, out 6 1, out 7 2, out 8 3";

/// Two bits, and not of the first, and, or, xor of both.
const GATES: [(&str, &str); 9] = [
    ("00", "1000"),
    ("01", "1011"),
    ("0X", "10XX"),
    ("10", "0011"),
    ("11", "0110"),
    ("1X", "0X1X"),
    ("X0", "X0XX"),
    ("X1", "XX1X"),
    ("XX", "XXXX"),
];

/// 300 slots of 1: what is behind them names slots above 255.
const HIGH: &str = r"run  |\{300|4753010000000000 }";

/// `BITS |RECORDS`, the list in words. Not every good list is a translation: outputs may be read, constants stand anywhere.
const LISTS: &str = "
10 |in 0, not 0, out 1 0, in 1, and 2 3, out 4 1 => 00, slots 100000
01 |in 0, not 0, out 1 0, in 1, and 2 3, out 4 1 => 11, slots 011111
0X |in 0, not 0, out 1 0, in 1, and 2 3, out 4 1 => 1X, slots 011XXX
0 |in 0, not 0, out 1 0, in 1, and 2 3, out 4 1 => refused 23 at 0
 |1, out 0 0, out 1 1, out 2 2 => 111, slots 1111
 |X, X, 0, 1, or 0 3, out 4 0 => 1, slots XX0111
1 |in 0, xor 0 0, out 1 0 => 0, slots 100
X |in 0, xor 0 0, out 1 0 => X, slots XXX
1 |in 0 => , slots 1
X |in 0 => , slots X
3 |in 0 => refused 23 at 0
 |in 0 => refused 23 at 0
 |in 1 => refused 22 at 0
00 |in 0, in 0 => refused 22 at 8
00 |in 0, in 2 => refused 22 at 8
000 |in 0, in 1, in 1 => refused 22 at 16
00 |in 1, in 0 => refused 22 at 0
0 |in 0 1 => refused 22 at 0
 |0 1 => refused 22 at 0
 |0 0 1 => refused 22 at 0
 |1 256 => refused 22 at 0
 |1 0 256 => refused 22 at 0
 |X 1 => refused 22 at 0
 |X 0 65535 => refused 22 at 0
 |not 0 => refused 22 at 0
 |0, not 0 => , slots 01
 |0, not 1 => refused 22 at 8
 |0, not 2 => refused 22 at 8
 |0, not 256 => refused 22 at 8
 |0, not 0 1 => refused 22 at 8
 |0, not 0 256 => refused 22 at 8
 |0, and 0 0 => , slots 00
 |0, and 0 1 => refused 22 at 8
 |0, and 1 0 => refused 22 at 8
 |0, or 0 1 => refused 22 at 8
 |0, or 1 0 => refused 22 at 8
 |0, xor 0 1 => refused 22 at 8
 |0, xor 1 0 => refused 22 at 8
 |0, xor 0 256 => refused 22 at 8
 |0, xor 256 0 => refused 22 at 8
 |out 0 0 => refused 22 at 0
 |0, out 0 0 => 0, slots 00
 |0, out 1 0 => refused 22 at 8
 |0, out 0 1 => refused 22 at 8
 |0, out 0 256 => refused 22 at 8
 |0, out 0 0, out 0 0 => refused 22 at 16
 |0, out 0 0, out 0 2 => refused 22 at 16
 |0, out 0 1, out 0 0 => refused 22 at 8
333 |not 0 => refused 22 at 0
";

/// Lists in hex: none, the longest, and one record or a part more. "A part of a record is a bad one; a record's place is its first byte."
const LONG: &str = r"
run  | => , slots 
run 0 | => refused 23 at 0
run 3 | => refused 23 at 0
run  |\{8192|4753000000000000 } => , slots 8192 bits, sum 0
run  |\{8192|4753020000000000 } => , slots 8192 bits, sum 67117056
run  |\{8191|4753010000000000 }47530800fe1f0000 => 1, slots 8192 bits, sum 33558528
run  |\{8191|4753010000000000 }47530800ff1f0000 => refused 22 at 65528
run  |\{8193|4753000000000000 } => refused 22 at 65536
run  |\{8192|4753000000000000 }47 => refused 22 at 65536
run  |\{8192|4753000000000000 }ff => refused 22 at 65536
run 3 |\{8193|4753000000000000 } => refused 22 at 65536
run  |\{5|4753000000000000 }4753000000010000 \{8190|4753000000000000 } => refused 22 at 40
run  |\{8191|4753000000000000 }4753090000000000 4753000000000000 => refused 22 at 65528
";

fn told(line: &str, answer: &str) -> Case {
    let (bits, list) = line.split_once('|').unwrap_or_else(|| panic!("no bar: {line}"));
    Case::new(format!("run {bits}|{}", said(list)), answer)
}
