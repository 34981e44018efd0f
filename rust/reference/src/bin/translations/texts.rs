//! Texts and their load lists: the order of records, constants and pieces as operands, refusals, and lists of exactly 8,192 records.

use crate::hex::{said, CONSTANTS};
use reference::cases::{listed, Case};

pub fn cases() -> Vec<Case> {
    let mut cases = vec![Case::new(r"list |\n", CONSTANTS)];
    cases.extend(listed(ORDERS).map(|(text, list)| Case::new(format!("list |{text}"), format!("{CONSTANTS} {}", said(list)))));
    cases.extend(listed(REFUSALS).map(|(text, answer)| Case::new(format!("list |{text}"), answer)));
    cases.extend(FULL.iter().flat_map(|(text, last)| full(text, *last)));
    cases.push(Case::new(r"list |\{500|%\#:1 = eq X*256 X*256\n}", "refused 21 at 0"));
    cases.push(Case::new(r"list |\{500|%\#:1 = eq X*256 X*256\n}%999:1 = not %999\n", "refused 20 at 0"));
    cases.push(reversed());
    cases.push(ring_of_all());
    cases
}

/// Texts and the records that follow the three constants.
const ORDERS: &str = r##"
%0:1 = not %1\n%1:1 = not %3\n%2:1 = not %3\n%3:1 = input "a"\n%4:0 = output "y" [%0 %1 %2]\n => in 0, not 3, not 4, not 3, out 6 0, out 4 1, out 5 2
%5:0 = output "z" %3:2\n%0:3 = input "z"\n%6:0 = output "a" %0:3\n%3:2 = input "a"\n => in 0, in 1, in 2, in 3, in 4, out 6 0, out 7 1, out 3 2, out 4 3, out 5 4
%0:1 = not %2\n%1:1 = input "b"\n%2:1 = not %3\n%3:1 = input "a"\n%4:1 = not %1\n%5:0 = output "y" [%4 %0]\n => in 0, in 1, not 4, not 5, not 3, out 6 0, out 7 1
%0:2 = and 10 X1\n%2:0 = output "y" %0:2\n => and 0 1, and 1 2, out 3 0, out 4 1
%0:2 = input "a"\n%2:5 = not [%0+1*2 X1 %0+0]\n%7:0 = output "y" %2+3:2\n => in 0, in 1, not 3, not 1, not 2, not 4, not 4, out 8 0, out 9 1
%0:2 = input "a"\n%2:0 = output "y" [%0+0 %0+1]\n => in 0, in 1, out 4 0, out 3 1
%0:1 = buf %1\n%1:1 = buf %2\n%2:1 = buf 1\n%3:0 = output "y" [%0 %0]\n => out 1 0, out 1 1
%0:1 = buf [%0:0 1]\n%1:1 = not [%1*0 %0]\n => not 1
%0:1 = mux X 1 1\n%1:0 = output "y" %0\n => not 2, xor 2 2, and 2 1, and 3 1, or 5 6, xor 4 7, out 8 0
%0:1 = eq 1X 0X\n%1:0 = output "y" %0\n => xor 2 2, xor 1 0, or 3 4, not 5, out 6 0
%0:1 = ult 0X 10\n%1:0 = output "y" %0\n => not 2, and 3 0, or 3 0, and 5 0, or 4 6, not 0, and 8 1, or 8 1, and 10 7, or 9 11, out 12 0
%0:1 = slt 10 01\n%1:0 = output "y" %0\n => not 0, and 3 1, or 3 1, and 5 0, or 4 6, not 0, and 1 8, or 1 8, and 10 7, or 9 11, out 12 0
%0:2 = adc 0 X 0\n%2:0 = output "y" %0:2\n => xor 0 2, xor 3 0, and 0 2, or 0 2, and 6 0, or 5 7, out 4 0, out 8 1
%0:2 = input "a"\n%2:1 = eq %0:2 00\n%3:2 = mux %2 %0:2 01\n%5:0 = output "y" [%2 %3:2]\n => in 0, in 1, xor 3 0, xor 4 0, or 5 6, not 7, not 8, xor 8 8, and 8 3, and 9 1, or 11 12, xor 10 13, and 8 4, and 9 0, or 15 16, xor 10 17, out 14 0, out 18 1, out 8 2
!0 = scope "s"\n&"p":4 = io\n%0:1 = input "a" !0\n%1:0 = output "y" %0 !0\n => in 0, out 3 0
"##;

/// "Translation and evaluation refuse it", and what reading refuses before.
const REFUSALS: &str = r##"
%0:1 = buf %0\n => refused 20 at 0
%0:1 = not %1\n%1:1 = buf %0\n => refused 20 at 0
%0:2 = buf [%0+1 1]\n => refused 20 at 0
%0:2 = buf [%0+0 1]\n%2:0 = output "y" %0+1\n => refused 20 at 0
%0:1 = and 0 %1\n%1:1 = buf %2\n%2:1 = or 1 %0\n%3:0 = output "y" 1\n => refused 20 at 0
%0:1 = mux 1 0 %0\n%1:0 = output "y" %0\n => refused 20 at 0
%0:1 = input "a"\n%1:1 = not %0\n%2:1 = xor %3 %1\n%3:1 = not %2\n => refused 20 at 0
 => refused 4 at 0
%0:1 = buf %1\n => refused 14 at 11
%0:2 = buf 1\n => refused 12 at 0
"##;

/// Texts of exactly 8,192 records; each ends in an output of so many bits of cell 0, and one bit more is refused. The first is document
/// 01's line.
const FULL: [(&str, usize); 7] = [
    (r#"%0:256 = input "a"\n\{15|%9\#:1 = eq %0:256 %0:256\n}"#, 253),
    (r#"\{16|%\#:256 = input "\#"\n}\{15|%9\#:0 = output "\#" %\#:256\n}"#, 253),
    (r#"%0:256 = buf X*256\n\{5|%9\#:256 = adc X*255 X*255 0\n}\{2|%8\#:0 = output "\#" X*256\n}"#, 27),
    (r#"%0:256 = buf 1*256\n\{7|%9\#:256 = mux 1 %0:256 X*256\n}\{3|%8\#:0 = output "\#" X*256\n}"#, 239),
    (r#"%0:256 = buf 1*256\n\{6|%9\#:1 = ult %0:256 X*256\n}\{1|%8\#:0 = output "\#" X*256\n}"#, 253),
    (r#"%0:256 = buf 1*256\n\{6|%9\#:1 = slt %0:256 X*256\n}\{1|%8\#:0 = output "\#" X*256\n}"#, 253),
    (
        r#"%0:256 = input "a"\n\{5|%6\#:256 = not %0:256\n%7\#:256 = xor %0:256 %6\#:256\n%8\#:256 = and %7\#:256 1*256\n}\{15|%9\#:0 = output "\#" %0:256\n}"#,
        253,
    ),
];

fn full(text: &str, last: usize) -> [Case; 2] {
    let with = |bits: usize| format!("list |{text}%7777:0 = output \"last\" %0:{bits}\\n");
    [Case::begins(with(last), "8192 records, sum "), Case::new(with(last + 1), "refused 21 at 0")]
}

/// 510 inverters, each of the next one, the last of an input.
fn reversed() -> Case {
    let cells: String = (0..510).map(|n| format!("%{n}:1 = not %{}\\n", n + 1)).collect();
    Case::begins(format!("list |{cells}%510:1 = input \"a\"\\n%511:0 = output \"y\" [%0 %1]\\n"), "516 records, sum ")
}

fn ring_of_all() -> Case {
    let cells: String = (0..512).map(|n| format!("%{n}:1 = buf %{}\\n", (n + 1) % 512)).collect();
    Case::new(format!("list |{cells}"), "refused 20 at 0")
}
