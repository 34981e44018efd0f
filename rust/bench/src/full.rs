//! Netlists for the reader: at 64 KiB they come near every limit of Room, and shorter ones are the same in small.

use crate::Random;
use std::fmt::Write;

const STAGES: [&str; 8] = ["weigher", "colour", "lane_gate", "belt", "size_sorter", "reject", "tray\\5b0\\5d", "counter"];
const SIGNALS: [&str; 6] = ["sum", "weight_in", "enable", "limit\\22hi\\22", "count_next", "g\\c3\\b6\\c3\\9fe"];
const FILES: [&str; 4] = ["src/grader/top.py", "src/grader/lane.py", "src/common/adder.py", "C:\\5cwork\\5ccard.v"];

/// At most this many blocks keep every limit: 8 cells, 8 metadata rows, 16 set members, 50 cell bits and 8 output bits each.
const MOST_BLOCKS: usize = 64;

struct Writer {
    random: Random,
    text: String,
    /// Number and width of each cell so far.
    cells: Vec<(usize, usize)>,
    next_cell: usize,
    next_meta: usize,
}

impl Writer {
    fn meta(&mut self, what: &str) -> usize {
        let index = self.next_meta;
        self.next_meta += 1;
        let _ = writeln!(self.text, "!{index} = {what}");
        index
    }

    fn cell(&mut self, width: usize, what: &str) {
        let index = self.next_cell;
        self.next_cell += width.max(1);
        let _ = writeln!(self.text, "%{index}:{width} = {what}");
        if width > 0 {
            self.cells.push((index, width));
        }
    }

    /// A piece of a recent cell, at most `most` wide, and its width.
    fn piece(&mut self, most: usize) -> (String, usize) {
        let recent = self.cells.len().min(20);
        let (index, whole) = self.cells[self.cells.len() - 1 - self.random.below(recent)];
        let width = 1 + self.random.below(whole.min(most));
        let offset = self.random.below(whole - width + 1);
        let piece = match (offset, width) {
            (0, w) if w == whole && w > 1 => format!("%{index}:{w}"),
            (0, 1) => format!("%{index}"),
            (o, 1) => format!("%{index}+{o}"),
            (o, w) => format!("%{index}+{o}:{w}"),
        };
        (piece, width)
    }

    /// An operand of this width: most are cut into pieces of one or two bits, as bit-level optimizers leave them.
    fn operand(&mut self, width: usize) -> String {
        if self.random.once_in(4) {
            let whole: Vec<usize> = self.cells.iter().rev().take(20).filter(|cell| cell.1 == width).map(|cell| cell.0).collect();
            if !whole.is_empty() {
                let index = self.random.pick(&whole);
                return if width == 1 { format!("%{index}") } else { format!("%{index}:{width}") };
            }
        }
        let mut parts = Vec::new();
        let mut left = width;
        while left > 0 {
            let (part, size) = match self.random.below(12) {
                0 => {
                    let trits = 1 + self.random.below(left.min(4));
                    ((0..trits).map(|_| self.random.pick(&['0', '1', 'X'])).collect(), trits)
                }
                1 => {
                    let times = 1 + self.random.below(left.min(4));
                    let (piece, _) = self.piece(1);
                    (format!("{piece}*{times}"), times)
                }
                _ => self.piece(left.min(2)),
            };
            parts.push(part);
            left -= size;
        }
        match &parts[..] {
            [one] => one.clone(),
            _ => format!("[{}]", parts.join(" ")),
        }
    }

    fn block(&mut self, number: usize) {
        let (stage, signal, file) = (self.random.pick(&STAGES), self.random.pick(&SIGNALS), self.random.pick(&FILES));
        let (row, column) = (1 + self.random.below(900), self.random.below(60));
        let source = self.meta(&format!("source \"{file}\" (#{row} #{column}) (#{row} #{})", column + 9));
        let scope = self.meta(&format!("scope \"{stage}_{number}\" src=!{source}"));
        let lane = self.meta(&format!("scope #{} in=!{scope}", number % 4));
        let ident = self.meta(&format!("ident \"{signal}_{stage}_{number}\" in=!{lane}"));
        let carry = self.meta(&format!("ident \"carry\" in=!{scope}"));
        let keep = self.meta("attr \"keep\" #1");
        let pin = self.meta(&match number % 2 {
            0 => format!("attr \"BEL\" \"X{number}/Y{row}\""),
            _ => "attr \"PIN\" 110X00".into(),
        });
        let members: Vec<String> = (0..16).map(|k| format!("!{}", [source, ident, carry, keep, pin][k % 5])).collect();
        let set = self.meta(&format!("{{{}}}", members.join(" ")));
        let _ = writeln!(self.text, "&\"gpio{number}\":8 = io");
        self.cell(8, &format!("input \"{stage}/{signal}_{number}\" !{ident}"));
        for keyword in ["and", "or", "xor"] {
            let (a, b) = (self.operand(8), self.operand(8));
            self.cell(8, &format!("{keyword} {a} {b} !{set}"));
        }
        let (s, a, b) = (self.operand(1), self.operand(8), self.operand(8));
        self.cell(8, &format!("mux {s} {a} {b}"));
        let (a, b) = (self.operand(8), self.operand(8));
        self.cell(9, &format!("adc {a} {b} 0 !{carry}"));
        let (a, b) = (self.operand(9), self.operand(9));
        self.cell(1, &format!("{} {a} {b}", ["eq", "ult", "slt"][number % 3]));
        let value = self.operand(8);
        self.cell(0, &format!("output \"{stage}/{signal}_{number}\" {value} !{keep}"));
    }
}

/// A netlist of exactly `size` bytes (4,096 to 65,536) that the reader accepts; what no block fits in is comments.
pub fn full_netlist(size: usize, seed: u64) -> Vec<u8> {
    let mut writer = Writer {
        random: Random::new(seed),
        text: String::with_capacity(size + 4096),
        cells: Vec::new(),
        next_cell: 0,
        next_meta: 0,
    };
    let mut kept = 0;
    for number in 0..MOST_BLOCKS {
        writer.block(number);
        if writer.text.len() + 2 > size {
            break;
        }
        kept = writer.text.len();
    }
    let mut text = writer.text.into_bytes();
    text.truncate(kept);
    crate::fill_with_comments(text, size)
}

/// A netlist of exactly `size` bytes that the reader accepts: up to 512 inputs with names of 32 bytes that differ in the last three.
pub fn alike_netlist(size: usize, _: u64) -> Vec<u8> {
    let mut text = String::with_capacity(size + 64);
    for number in 0..512 {
        let line = format!("%{number}:1 = input \"grader_lane7/weigher/channel_{number:03}\"\n");
        if text.len() + line.len() + 2 > size {
            break;
        }
        text.push_str(&line);
    }
    crate::fill_with_comments(text.into_bytes(), size)
}

/// The name that has `Aa` or `BB` for each of sixteen bits, which many simple sums over the bytes of a name do not tell apart.
fn paired_name(number: usize) -> String {
    (0..16).map(|bit| if number >> bit & 1 == 0 { "Aa" } else { "BB" }).collect()
}

/// The same with names of 32 bytes made of the pairs `Aa` and `BB`.
pub fn paired_netlist(size: usize, _: u64) -> Vec<u8> {
    let mut text = String::with_capacity(size + 64);
    for number in 0..512 {
        let line = format!("%{number}:1 = input \"{}\"\n", paired_name(number));
        if text.len() + line.len() + 2 > size {
            break;
        }
        text.push_str(&line);
    }
    crate::fill_with_comments(text.into_bytes(), size)
}

/// A netlist of exactly `size` bytes that the reader accepts: up to 64 pads with names of 240 bytes that differ in the last three.
pub fn pads_netlist(size: usize, _: u64) -> Vec<u8> {
    let front = "grader_lane7/weigher/channel_".repeat(9);
    let mut text = String::with_capacity(size + 512);
    for number in 0..64 {
        let line = format!("&\"{}{number:03}\":1 = io\n", &front[..237]);
        if text.len() + line.len() + 2 > size {
            break;
        }
        text.push_str(&line);
    }
    crate::fill_with_comments(text.into_bytes(), size)
}

#[cfg(test)]
mod tests {
    use super::*;

    #[test]
    fn names_alike_are_accepted() {
        for (kib, inputs) in [(4, 80), (16, 300), (64, 512)] {
            let text = alike_netlist(kib << 10, 0);
            assert_eq!(text.len(), kib << 10);
            let tables = reference::read(&text).expect("accepted");
            assert!(tables.rows[2] >= inputs, "{} inputs", tables.rows[2]);
            assert_eq!(tables.strings.iter().filter(|byte| **byte != 0).count(), 32 * tables.rows[2] as usize);
        }
    }

    #[test]
    fn paired_names_and_pads_are_accepted() {
        for (kib, inputs, pads) in [(4, 80, 15), (16, 300, 60), (64, 512, 64)] {
            let paired = reference::read(&paired_netlist(kib << 10, 0)).expect("accepted");
            assert!(paired.rows[2] >= inputs, "{} inputs", paired.rows[2]);
            let alike = reference::read(&pads_netlist(kib << 10, 0)).expect("accepted");
            assert!(alike.rows[1] >= pads, "{} pads", alike.rows[1]);
        }
    }

    #[test]
    fn accepted_and_near_the_limits() {
        for (kib, cells) in [(4, 32), (16, 128), (64, 512)] {
            let text = full_netlist(kib << 10, kib as u64);
            assert_eq!(text.len(), kib << 10);
            let tables = reference::read(&text).expect("accepted");
            let (rows, strings) = (&tables.rows, tables.strings.iter().filter(|byte| **byte != 0).count());
            let last = &rows[9_411 + 9 * (rows[2] as usize - 1)..];
            let runs = last[5] + last[6] + last[7] + last[8];
            println!(
                "{kib} KiB: {} metadata, {} pads, {} cells, {runs} runs, {strings} bytes of strings",
                rows[0], rows[1], rows[2]
            );
            assert!(rows[2] >= cells && runs >= 7 * cells, "{} cells, {runs} runs", rows[2]);
        }
    }
}
