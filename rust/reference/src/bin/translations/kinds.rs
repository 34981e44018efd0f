//! Document 01's worked list, and the exact records of every kind at widths 1, 2 and 3, written by hand.

use crate::hex::{said, CONSTANTS};
use reference::cases::{cell_text, listed, Case};

/// The text and the list of document 01's listing, byte for byte.
pub const SUM: &str = r#"%9:1 = input "a"\n%3:1 = input "b"\n%0:2 = adc %9 %3 0\n%7:0 = output "sum" [%0+1 %0+0]\n"#;
pub const SUM_LIST: &str = "\
4753000000000000 4753010000000000 4753020000000000 4753030000000000 4753030001000000 4753070003000400 4753070005000000 \
4753050003000400 4753060003000400 4753050008000000 4753060007000900 4753080006000000 475308000a000100";

pub fn cases() -> Vec<Case> {
    let mut cases = vec![Case::new(format!("list |{SUM}"), SUM_LIST)];
    cases.extend(listed(ONE).map(|(line, list)| Case::new(line, format!("{CONSTANTS} {list}"))));
    let widths = [(2, TWO), (3, THREE)];
    cases.extend(widths.into_iter().flat_map(|(width, list)| listed(list).map(move |(word, list)| wide(word, width, list))));
    cases
}

/// Each kind at width 1; behind the arrow the records that follow the three constants.
const ONE: &str = r##"
list |%0:1 = input "a"\n => 4753030000000000
list |%0:0 = output "y" 0\n => 4753080000000000
list |%0:0 = output "y" 1\n => 4753080001000000
list |%0:0 = output "y" X\n => 4753080002000000
list |%0:1 = input "a"\n%1:1 = buf %0\n%2:0 = output "y" %1\n => 4753030000000000 4753080003000000
list |%0:1 = input "a"\n%1:1 = not %0\n%2:0 = output "y" %1\n => 4753030000000000 4753040003000000 4753080004000000
list |%0:1 = input "a"\n%1:1 = input "b"\n%2:1 = and %0 %1\n%3:0 = output "y" %2\n => 4753030000000000 4753030001000000 4753050003000400 4753080005000000
list |%0:1 = input "a"\n%1:1 = input "b"\n%2:1 = or %0 %1\n%3:0 = output "y" %2\n => 4753030000000000 4753030001000000 4753060003000400 4753080005000000
list |%0:1 = input "a"\n%1:1 = input "b"\n%2:1 = xor %0 %1\n%3:0 = output "y" %2\n => 4753030000000000 4753030001000000 4753070003000400 4753080005000000
list |%0:1 = input "s"\n%1:1 = input "a"\n%2:1 = input "b"\n%3:1 = mux %0 %1 %2\n%4:0 = output "y" %3\n => 4753030000000000 4753030001000000 4753030002000000 4753040003000000 4753070003000300 4753050003000400 4753050006000500 4753060008000900 4753070007000a00 475308000b000000
list |%0:1 = input "a"\n%1:1 = input "b"\n%2:1 = input "c"\n%3:2 = adc %0 %1 %2\n%5:0 = output "y" %3:2\n => 4753030000000000 4753030001000000 4753030002000000 4753070003000400 4753070006000500 4753050003000400 4753060003000400 4753050009000500 4753060008000a00 4753080007000000 475308000b000100
list |%0:1 = input "a"\n%1:1 = input "b"\n%2:1 = eq %0 %1\n%3:0 = output "y" %2\n => 4753030000000000 4753030001000000 4753070003000400 4753040005000000 4753080006000000
list |%0:1 = input "a"\n%1:1 = input "b"\n%2:1 = ult %0 %1\n%3:0 = output "y" %2\n => 4753030000000000 4753030001000000 4753040003000000 4753050005000400 4753060005000400 4753050007000000 4753060006000800 4753080009000000
list |%0:1 = input "a"\n%1:1 = input "b"\n%2:1 = slt %0 %1\n%3:0 = output "y" %2\n => 4753030000000000 4753030001000000 4753040004000000 4753050003000500 4753060003000500 4753050007000000 4753060006000800 4753080009000000
"##;

/// Each kind at width 2, of inputs that stand in slot 3 and on: the cell's own records, then the outputs.
const TWO: &str = "
input => out 3 0, out 4 1
buf => out 3 0, out 4 1
not => not 3, not 4, out 5 0, out 6 1
and => and 3 5, and 4 6, out 7 0, out 8 1
or => or 3 5, or 4 6, out 7 0, out 8 1
xor => xor 3 5, xor 4 6, out 7 0, out 8 1
mux => not 3, xor 3 3, and 3 4, and 8 6, or 10 11, xor 9 12, and 3 5, and 8 7, or 14 15, xor 9 16, out 13 0, out 17 1
adc => xor 3 5, xor 8 7, and 3 5, or 3 5, and 11 7, or 10 12, xor 4 6, xor 14 13, and 4 6, or 4 6, and 17 13, or 16 18, out 9 0, out 15 1, out 19 2
eq => xor 3 5, xor 4 6, or 7 8, not 9, out 10 0
ult => not 3, and 7 5, or 7 5, and 9 0, or 8 10, not 4, and 12 6, or 12 6, and 14 11, or 13 15, out 16 0
slt => not 3, and 7 5, or 7 5, and 9 0, or 8 10, not 6, and 4 12, or 4 12, and 14 11, or 13 15, out 16 0
";

/// The same at width 3.
const THREE: &str = "
input => out 3 0, out 4 1, out 5 2
buf => out 3 0, out 4 1, out 5 2
not => not 3, not 4, not 5, out 6 0, out 7 1, out 8 2
and => and 3 6, and 4 7, and 5 8, out 9 0, out 10 1, out 11 2
or => or 3 6, or 4 7, or 5 8, out 9 0, out 10 1, out 11 2
xor => xor 3 6, xor 4 7, xor 5 8, out 9 0, out 10 1, out 11 2
mux => not 3, xor 3 3, and 3 4, and 10 7, or 12 13, xor 11 14, and 3 5, and 10 8, or 16 17, xor 11 18, and 3 6, and 10 9, or 20 21, xor 11 22, out 15 0, out 19 1, out 23 2
adc => xor 3 6, xor 10 9, and 3 6, or 3 6, and 13 9, or 12 14, xor 4 7, xor 16 15, and 4 7, or 4 7, and 19 15, or 18 20, xor 5 8, xor 22 21, and 5 8, or 5 8, and 25 21, or 24 26, out 11 0, out 17 1, out 23 2, out 27 3
eq => xor 3 6, xor 4 7, or 9 10, xor 5 8, or 11 12, not 13, out 14 0
ult => not 3, and 9 6, or 9 6, and 11 0, or 10 12, not 4, and 14 7, or 14 7, and 16 13, or 15 17, not 5, and 19 8, or 19 8, and 21 18, or 20 22, out 23 0
slt => not 3, and 9 6, or 9 6, and 11 0, or 10 12, not 4, and 14 7, or 14 7, and 16 13, or 15 17, not 8, and 5 19, or 5 19, and 21 18, or 20 22, out 23 0
";

/// A kind over inputs of this width, and its records behind theirs; of an input only itself, given out.
fn wide(word: &str, width: usize, list: &str) -> Case {
    let (text, inputs) = match word {
        "input" => (format!("%0:{width} = input \"0\"\\n%9:0 = output \"y\" %0:{width}\\n"), width),
        _ => cell_text(word, width),
    };
    let bits: String = (0..inputs).map(|bit| format!("in {bit}, ")).collect();
    Case::new(format!("list |{text}"), format!("{CONSTANTS} {}", said(&format!("{bits}{list}"))))
}
