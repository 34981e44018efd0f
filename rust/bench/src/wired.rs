//! Netlists for the logic: cells of every kind and little else. At 64 KiB they have 512 cells, 4,096 bits and 8,192 records.

use crate::Random;

/// As many blocks keep every limit: 8 cells, 64 bits and 128 records each, the last one three records less, for the constants.
const MOST_BLOCKS: usize = 64;
/// Bytes of the text for a block, comments counted.
const BLOCK: usize = 1 << 10;

struct Writer {
    random: Random,
    /// Number and width of each cell so far.
    cells: Vec<(usize, usize)>,
    next_cell: usize,
    lines: Vec<String>,
}

impl Writer {
    fn cell(&mut self, width: usize, what: &str) {
        let index = self.next_cell;
        self.next_cell += width.max(1);
        self.lines.push(format!("%{index}:{width} = {what}\n"));
        if width > 0 {
            self.cells.push((index, width));
        }
    }

    /// An operand of this width: now and then a whole cell or constants, else pieces of recent cells.
    fn operand(&mut self, width: usize) -> String {
        let mut parts = Vec::new();
        let mut left = width;
        while left > 0 {
            let recent = self.cells.len().min(30);
            let (index, whole) = self.cells[self.cells.len() - 1 - self.random.below(recent)];
            let size = if self.random.once_in(4) { whole.min(left) } else { 1 + self.random.below(whole.min(left).min(3)) };
            if self.random.once_in(12) {
                let trits = left.min(3);
                parts.push((0..trits).map(|_| self.random.pick(&['0', '1', '1', 'X'])).collect());
                left -= trits;
                continue;
            }
            let offset = self.random.below(whole - size + 1);
            parts.push(match size {
                1 => format!("%{index}+{offset}"),
                _ => format!("%{index}+{offset}:{size}"),
            });
            left -= size;
        }
        format!("[{}]", parts.join(" "))
    }

    fn operands(&mut self, keyword: &str, widths: &[usize]) -> String {
        let operands: Vec<String> = widths.iter().map(|&width| self.operand(width)).collect();
        format!("{keyword} {}", operands.join(" "))
    }

    /// Eight cells in the order in which they are made; given bits are those of the output.
    fn block(&mut self, number: usize, given: usize) {
        self.cell(10, &format!("input \"lane {number}\""));
        for (width, keyword, widths) in [
            (14, "buf", &[14][..]),
            (12, ["and", "or"][number % 2], &[12, 12]),
            (11, ["xor", "not"][number / 2 % 2], &[11, 11][..2 - number / 2 % 2]),
            (8, "mux", &[1, 8, 8]),
            (8, "adc", &[7, 7, 1]),
            (1, ["eq", "ult", "slt"][number % 3], [&[5, 5][..], &[2, 2], &[2, 2]][number % 3]),
            (0, &format!("output \"lane {number}\""), &[given]),
        ] {
            let what = self.operands(keyword, widths);
            self.cell(width, &what);
        }
    }
}

fn blocks(count: usize, seed: u64) -> Vec<Vec<String>> {
    let mut writer = Writer { random: Random::new(seed), cells: Vec::new(), next_cell: 0, lines: Vec::new() };
    let block = |number| {
        writer.block(number, if number + 1 == count { 6 } else { 9 });
        let mut lines = std::mem::take(&mut writer.lines);
        // one block in eight stands the other way round, so that its cells wait for later ones
        if number % 8 == 3 {
            lines.reverse();
        }
        lines
    };
    (0..count).map(block).collect()
}

/// A netlist of exactly `size` bytes (4,096 to 65,536) with 8 cells, 64 bits and 128 records for each KiB.
pub fn wired_netlist(size: usize, seed: u64) -> Vec<u8> {
    let count = (size / BLOCK).min(MOST_BLOCKS);
    crate::fill_with_comments(blocks(count, seed).concat().concat().into_bytes(), size)
}

/// The same with the lines of all cells the other way round, so that nearly every cell waits for a later one.
pub fn turned_netlist(size: usize, seed: u64) -> Vec<u8> {
    let count = (size / BLOCK).min(MOST_BLOCKS);
    let mut lines = blocks(count, seed).concat();
    lines.reverse();
    crate::fill_with_comments(lines.concat().into_bytes(), size)
}

/// A random netlist without rings: cells of every kind and of widths up to 256, their lines in any order. Some have more records than a
/// list may have.
pub fn any_wired(random: &mut Random) -> Vec<u8> {
    let mut writer = Writer { random: random.clone(), cells: Vec::new(), next_cell: 0, lines: Vec::new() };
    random.bits();
    let count = 1 + writer.random.below(40);
    let most = writer.random.pick(&[2, 5, 17, 64, 256]);
    let mut left = 4_096;
    while writer.lines.len() < count && left > 0 {
        let width = 1 + writer.random.below(most.min(left));
        left -= writer.any_cell(width);
    }
    let mut lines = writer.lines;
    if writer.random.once_in(2) {
        for end in (1..lines.len()).rev() {
            lines.swap(end, writer.random.below(end + 1));
        }
    }
    lines.concat().into_bytes()
}

impl Writer {
    /// A cell of any kind, of this width where the kind allows it; gives its width.
    fn any_cell(&mut self, width: usize) -> usize {
        let number = self.lines.len();
        let kind = if self.cells.is_empty() { 0 } else { self.random.below(13) };
        let (made, keyword, widths) = match kind {
            0 => {
                self.cell(width, &format!("input \"{number}\""));
                return width;
            }
            1 | 2 => {
                let what = self.operands(&format!("output \"{number}\""), &[width]);
                self.cell(0, &what);
                return 0;
            }
            3 => (width, "buf", vec![width]),
            4 => (width, "not", vec![width]),
            5 => (width, "and", vec![width; 2]),
            6 => (width, "or", vec![width; 2]),
            7 => (width, "xor", vec![width; 2]),
            8 => (width, "mux", vec![1, width, width]),
            9 if width > 1 => (width, "adc", vec![width - 1, width - 1, 1]),
            10 => (1, "ult", vec![width; 2]),
            11 => (1, "slt", vec![width; 2]),
            _ => (1, "eq", vec![width; 2]),
        };
        let what = self.operands(keyword, &widths);
        self.cell(made, &what);
        made
    }
}

#[cfg(test)]
mod tests {
    use super::*;
    use reference::logic::LOGIC_WORK;

    #[test]
    fn any_wired_is_accepted_and_has_no_ring() {
        let mut random = Random::new(3);
        for _ in 0..500 {
            let tables = reference::read(&any_wired(&mut random)).expect("accepted");
            let (mut outs, mut work) = (vec![0; 4_096], vec![0; LOGIC_WORK]);
            let told = reference::evaluate_into(&tables.rows, &tables.strings, &tables.trits, &[3], &mut outs, &mut work);
            assert_eq!(told.map_err(|refusal| refusal.number), Err(23));
        }
    }

    #[test]
    fn sizes_are_as_told() {
        for kib in [4, 16, 64] {
            for text in [wired_netlist(kib << 10, kib as u64), turned_netlist(kib << 10, kib as u64)] {
                assert_eq!(text.len(), kib << 10);
                let tables = reference::read(&text).expect("accepted");
                let rows = &tables.rows;
                let bits: u32 = (0..rows[2] as usize).map(|row| rows[9_411 + 9 * row + 1]).sum();
                assert_eq!((rows[2] as usize, bits as usize), (8 * kib, 64 * kib));
                let (mut list, mut work) = (vec![0; 65_536], vec![0; LOGIC_WORK]);
                let records = reference::translate_into(rows, &tables.strings, &tables.trits, &mut list, &mut work);
                assert_eq!(records, Ok(128 * kib));
            }
        }
    }
}
