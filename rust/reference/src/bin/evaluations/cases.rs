//! Worked netlists and settings, each with the output bits or the refusal that the documents give it, apart from any evaluator.

use reference::cases::Case;

pub fn all() -> Vec<Case> {
    let mut cases: Vec<Case> = listed(LINES).collect();
    cases.extend(listed(RINGS));
    cases.extend(listed(ORDERS));
    cases.extend(listed(REFUSALS));
    cases.extend(truth_tables());
    cases.extend(adders());
    cases.push(reversed());
    cases.push(ring_of_all());
    cases
}

/// Cases one a line: `BITS |TEXT => ANSWER`.
fn listed(list: &str) -> impl Iterator<Item = Case> + '_ {
    reference::cases::listed(list).map(|(line, answer)| Case::new(line, answer))
}

/// Document 01, 'Lines between yes and no' and 'Errors that look reasonable'.
const LINES: &str = r##"
 |\n =>
 |%0:1 = mux X 1 1\n%1:0 = output "y" %0\n => X
 |%0:1 = mux X 0 0\n%1:0 = output "y" %0\n => X
 |%0:1 = eq 1X 0X\n%1:0 = output "y" %0\n => 0
 |%0:1 = eq 1X 10\n%1:0 = output "y" %0\n => X
 |%0:1 = ult 0X 10\n%1:0 = output "y" %0\n => 1
 |%0:1 = slt 10 01\n%1:0 = output "y" %0\n => 1
 |%0:1 = ult 10 01\n%1:0 = output "y" %0\n => 0
 |%0:2 = adc 0 X 0\n%2:0 = output "y" %0:2\n => X0
 |%0:4 = adc 1X0 001 0\n%4:0 = output "y" %0:4\n => 1X10
00 |%9:1 = input "a"\n%3:1 = input "b"\n%0:2 = adc %9 %3 0\n%7:0 = output "sum" [%0+1 %0+0]\n => 00
10 |%9:1 = input "a"\n%3:1 = input "b"\n%0:2 = adc %9 %3 0\n%7:0 = output "sum" [%0+1 %0+0]\n => 10
11 |%9:1 = input "a"\n%3:1 = input "b"\n%0:2 = adc %9 %3 0\n%7:0 = output "sum" [%0+1 %0+0]\n => 01
1X |%9:1 = input "a"\n%3:1 = input "b"\n%0:2 = adc %9 %3 0\n%7:0 = output "sum" [%0+1 %0+0]\n => XX
0110 |%0:4 = input "size"\n%4:0 = output "y" %0+1:3\n => 110
0110 |%0:4 = input "size"\n%4:0 = output "y" [%0+4:0 %0]\n => 0
"##;

/// "A ring: a cell reached from itself through pieces of width 1 or more, repeated at least once, whole cells counted."
const RINGS: &str = r##"
 |%0:1 = buf %0\n => refused 20 at 0
 |%0:1 = not %1\n%1:1 = buf %0\n => refused 20 at 0
 |%0:2 = buf [%0+1 1]\n => refused 20 at 0
 |%0:2 = buf [%0+0 1]\n%2:0 = output "y" %0+1\n => refused 20 at 0
 |%0:1 = and 0 %1\n%1:1 = buf %2\n%2:1 = or 1 %0\n%3:0 = output "y" 1\n => refused 20 at 0
 |%0:1 = mux 1 0 %0\n%1:0 = output "y" %0\n => refused 20 at 0
 |%0:1 = buf [%0:0 1]\n%1:0 = output "y" %0\n => 1
 |%0:1 = buf [%0*0 1]\n%1:0 = output "y" %0\n => 1
 |%0:1 = buf [%1:0 0]\n%1:1 = buf %0\n%2:0 = output "y" [%0 %1]\n => 00
1 |%0:1 = input "a"\n%1:1 = buf %1\n => refused 20 at 0
3 |%0:1 = input "a"\n%1:1 = buf %1\n => refused 20 at 0
"##;

/// "input bits by row, bit 0 first", "output bits by row", "Bits go from 0 up".
const ORDERS: &str = r##"
01X |%0:3 = input "a"\n%3:0 = output "y" %0:3\n => 01X
01X |%0:3 = input "a"\n%3:0 = output "y" [%0+0 %0+1 %0+2]\n => X10
01X |%0:3 = input "a"\n%3:0 = output "y" [%0+1*2 X1 %0+2]\n => X1X11
01X10 |%0:3 = input "z"\n%3:2 = input "a"\n%5:0 = output "z" %3:2\n%6:0 = output "a" %0:3\n => 1001X
01X10 |%5:0 = output "z" %3:2\n%0:3 = input "z"\n%6:0 = output "a" %0:3\n%3:2 = input "a"\n => 1001X
01 |%0:1 = input "a"\n%1:8 = buf 00000000\n%9:1 = input "b"\n%10:0 = output "y" [%9 %0]\n => 01
10 |%0:1 = buf %1\n%1:1 = not %2\n%2:1 = and %3 %4\n%3:1 = input "a"\n%4:1 = input "b"\n%5:0 = output "y" [%0 %2]\n => 01
1X |%0:0 = output "y" [%1 %2 %3]\n%1:1 = xor %2 %3\n%2:1 = input "a"\n%3:1 = input "b"\n => X1X
 |%0:0 = output "y" 10X\n => X01
 |%0:3 = not 10X\n%3:0 = output "y" %0:3\n => X10
 |%0:0 = output "a" 1\n%0001:0 = output "b" 0\n%2:0 = output "c" X1\n => 101X
"##;

const REFUSALS: &str = r##"
0 |\n => refused 23 at 0
 |%0:1 = input "a"\n => refused 23 at 0
00 |%0:1 = input "a"\n => refused 23 at 0
3 |%0:1 = input "a"\n => refused 23 at 0
013 |%0:3 = input "a"\n => refused 23 at 0
01X |%0:3 = input "a"\n =>
0 |%0:1 = buf %1\n => refused 14 at 11
"##;

const LETTERS: [char; 3] = ['0', '1', 'X'];

/// One-bit cells: the value for each setting of the operands, the last of which changes first.
const TABLES: [(&str, usize, &str); 9] = [
    ("buf", 1, "01X"),
    ("not", 1, "10X"),
    ("and", 2, "00001X0XX"),
    ("or", 2, "01X111X1X"),
    ("xor", 2, "01X10XXXX"),
    ("eq", 2, "10X01XXXX"),
    ("ult", 2, "01X0000XX"),
    ("slt", 2, "00010XX0X"),
    ("mux", 3, "01X01X01X000111XXXXXXXXXXXX"),
];

fn truth_tables() -> Vec<Case> {
    let lines = |(word, operands, values): (&'static str, usize, &'static str)| {
        let text: String = (0..operands).map(|n| format!("%{n}:1 = input \"{n}\"\\n")).collect();
        let reads: String = (0..operands).map(|n| format!(" %{n}")).collect();
        values.chars().enumerate().map(move |(setting, value)| {
            let line = format!("{} |{text}%8:1 = {word}{reads}\\n%9:0 = output \"y\" %8\\n", letters(setting, operands));
            Case::new(line, value)
        })
    };
    TABLES.into_iter().flat_map(lines).collect()
}

fn letters(setting: usize, count: usize) -> String {
    (0..count as u32).rev().map(|place| LETTERS[setting / 3_usize.pow(place) % 3]).collect()
}

/// adc of one bit: the sum, then the carry, for each setting of a, b and c.
const SUMS: &str = "00 10 X0 10 01 XX X0 XX XX 10 01 XX 01 11 X1 XX X1 XX X0 XX XX XX X1 XX XX XX XX";

fn adders() -> Vec<Case> {
    let text = r#"%0:1 = input "a"\n%1:1 = input "b"\n%2:1 = input "c"\n%3:2 = adc %0 %1 %2\n%5:0 = output "y" %3:2\n"#;
    let case = |(setting, value): (usize, &str)| Case::new(format!("{} |{text}", letters(setting, 3)), value);
    SUMS.split(' ').enumerate().map(case).collect()
}

/// 510 inverters, each of the next one, the last of an input.
fn reversed() -> Case {
    let cells: String = (0..510).map(|n| format!("%{n}:1 = not %{}\\n", n + 1)).collect();
    Case::new(format!("1 |{cells}%510:1 = input \"a\"\\n%511:0 = output \"y\" [%0 %1]\\n"), "01")
}

fn ring_of_all() -> Case {
    let cells: String = (0..512).map(|n| format!("%{n}:1 = buf %{}\\n", (n + 1) % 512)).collect();
    Case::new(format!(" |{cells}"), "refused 20 at 0")
}
