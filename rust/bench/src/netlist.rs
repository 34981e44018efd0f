//! Netlists as a design tool writes them: metadata, ports, cells with whole operands and cut ones, and comments here and there.

use crate::Random;
use std::fmt::Write;

const STAGES: [&str; 8] = ["weigher", "colour", "lane_gate", "belt", "size_sorter", "reject", "tray\\5b0\\5d", "counter"];
const SIGNALS: [&str; 8] =
    ["sum", "weight_in", "enable", "limit\\22hi\\22", "count_next", "state", "carry", "g\\c3\\b6\\c3\\9fe"];
const FILES: [&str; 4] = ["src/grader/top.py", "src/grader/lane.py", "src/common/adder.py", "C:\\5cwork\\5ccard.v"];
const NOTES: [&str; 5] = [
    "------------------------------------------------------------------------",
    "lane weights are summed before the limit is asked; see card 7, sheet 3",
    "the old half ends here, what follows is of the new layout",
    "Größe und Gewicht, 0 bis 255",
    "kept for the bench: do not reorder",
];

struct Writer {
    random: Random,
    text: String,
    /// Number and width of each cell so far.
    cells: Vec<(usize, usize)>,
    next_cell: usize,
    next_meta: usize,
    scope: usize,
}

impl Writer {
    fn line(&mut self, line: &str) {
        self.text.push_str(line);
        self.text.push('\n');
    }

    fn meta(&mut self, what: &str) -> usize {
        let index = self.next_meta;
        self.next_meta += 1;
        self.line(&format!("!{index} = {what}"));
        index
    }

    fn cell(&mut self, width: usize, what: &str) {
        let index = self.next_cell;
        self.next_cell += width.max(1);
        self.line(&format!("%{index}:{width} = {what}"));
        if width > 0 {
            self.cells.push((index, width));
        }
    }

    /// A piece of an earlier cell, at most `most` wide, and its width.
    fn piece(&mut self, most: usize) -> (String, usize) {
        let recent = self.cells.len().min(24);
        let (index, whole) = self.cells[self.cells.len() - 1 - self.random.below(recent)];
        let width = 1 + self.random.below(whole.min(most));
        let offset = self.random.below(whole - width + 1);
        let piece = match (offset, width) {
            (0, w) if w == whole => format!("%{index}:{w}"),
            (o, 1) => format!("%{index}+{o}"),
            (o, w) => format!("%{index}+{o}:{w}"),
        };
        (piece, width)
    }

    /// An operand of this width: a whole cell, a constant, or parts in brackets.
    fn operand(&mut self, width: usize) -> String {
        let whole: Vec<usize> = self.cells.iter().rev().take(24).filter(|cell| cell.1 == width).map(|cell| cell.0).collect();
        if !whole.is_empty() && self.random.once_in(2) {
            let index = self.random.pick(&whole);
            return if width == 1 { format!("%{index}") } else { format!("%{index}:{width}") };
        }
        if self.random.once_in(12) {
            return (0..width).map(|_| self.random.pick(&['0', '1', '0', '1', 'X'])).collect();
        }
        let mut parts = String::from("[");
        let mut left = width;
        while left > 0 {
            let part = match self.random.below(6) {
                0 => {
                    let times = 1 + self.random.below(left);
                    left -= times;
                    format!("{}*{times}", self.random.pick(&['0', '1', 'X']))
                }
                1 => {
                    let trits = 1 + self.random.below(left);
                    left -= trits;
                    (0..trits).map(|_| self.random.pick(&['0', '1', 'X'])).collect()
                }
                _ => {
                    let (piece, size) = self.piece(left);
                    let times = 1 + self.random.below(left / size).min(1);
                    left -= size * times;
                    if times > 1 {
                        format!("{piece}*{times}")
                    } else {
                        piece
                    }
                }
            };
            let gap = if parts.len() > 1 { " " } else { "" };
            let _ = write!(parts, "{gap}{part}");
        }
        parts.push(']');
        parts
    }

    fn block(&mut self, number: usize) {
        if self.random.once_in(2) {
            let note = self.random.pick(&NOTES);
            self.line(&format!("; {note}"));
        }
        let (stage, signal, file) = (self.random.pick(&STAGES), self.random.pick(&SIGNALS), self.random.pick(&FILES));
        let (row, column) = (1 + self.random.below(900), self.random.below(60));
        let end = column + self.random.below(30);
        let source = self.meta(&format!("source \"{file}\" (#{row} #{column}) (#{row} #{end})"));
        let parent = self.scope;
        self.scope = match number % 8 {
            0 => self.meta(&format!("scope \"{stage}\" src=!{source}")),
            1 => self.meta(&format!("scope #{} in=!{parent}", number as i64 - 4)),
            _ => self.meta(&format!("scope \"{stage}\" in=!{parent} src=!{source}")),
        };
        let scope = self.scope;
        let ident = self.meta(&format!("ident \"{signal}_{number}\" in=!{scope}"));
        let attribute = match number % 3 {
            0 => self.meta("attr \"KEEP\" #1"),
            1 => self.meta("attr \"PIN_TYPE\" 110X00"),
            _ => self.meta(&format!("attr \"BEL\" \"X{number}/Y{row}\"")),
        };
        let set = self.meta(&format!("{{!{source} !{ident} !{attribute}}}"));
        if number % 4 == 0 {
            self.line(&format!("&\"gpio{number}\":8 = io"));
        }
        self.cell(8, &format!("input \"{stage}/{signal}_{number}\" !{ident}"));
        for keyword in ["and", "or", "xor"] {
            let (a, b) = (self.operand(8), self.operand(8));
            self.cell(8, &format!("{keyword} {a} {b} !{set}"));
        }
        let (s, a, b) = (self.operand(1), self.operand(8), self.operand(8));
        self.cell(8, &format!("mux {s} {a} {b}"));
        let (a, b) = (self.operand(8), self.operand(8));
        self.cell(9, &format!("adc {a} {b} 0 !{source}"));
        let (a, b) = (self.operand(9), self.operand(9));
        self.cell(1, &format!("{} {a} {b}", ["eq", "ult", "slt"][number % 3]));
        let value = self.operand(9);
        self.cell(0, &format!("output \"{stage}/{signal}_{number}\" {value} !{ident}"));
        if self.random.once_in(3) {
            self.line("");
        }
    }
}

/// A netlist of exactly `size` bytes (4,096 or more); the rest that no block fits in is a comment.
pub fn netlist(size: usize, seed: u64) -> Vec<u8> {
    let mut writer = Writer {
        random: Random::new(seed),
        text: String::with_capacity(size + 4096),
        cells: Vec::new(),
        next_cell: 0,
        next_meta: 0,
        scope: 0,
    };
    writer.line("; card 7, lanes 0 to 3");
    let mut number = 0;
    let mut kept = writer.text.len();
    while writer.text.len() + 2 <= size {
        kept = writer.text.len();
        writer.block(number);
        number += 1;
    }
    let mut text = writer.text.into_bytes();
    text.truncate(kept);
    fill_with_comments(text, size)
}

/// The text made `size` bytes long by comments.
pub(crate) fn fill_with_comments(mut text: Vec<u8>, size: usize) -> Vec<u8> {
    while text.len() + 80 < size {
        text.extend_from_slice(b"; end of the listing, kept blank up to the next sheet\n");
    }
    if text.len() < size {
        text.push(b';');
        text.resize(size - 1, b'.');
        text.push(b'\n');
    }
    text
}
