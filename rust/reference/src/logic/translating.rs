//! The translation: the load list of a netlist.

use super::cells::{set_starts, width, Cell, Cells, Run};
use super::operation::{AND, INPUT, NOT, OR, OUTPUT, XOR};
use super::placing::{place, PLACING};
use super::{of_good_tables, MOST_RECORDS, RECORD};
use crate::reading::cells::Keyword;
use crate::reading::tables::{MOST_CELLS, MOST_CELL_BITS};
use crate::{refusal, Refusal};

/// The widest operand.
const WIDEST: usize = 256;

/// The slot that holds 0, where the first carry of `ult` and `slt` is.
const ZERO: u16 = 0;

/// Translates the netlist of three tables: 1, 15, 20, 21, 24, or how many records there are, which then stand in `list`.
pub fn translate_into(rows: &[u32], strings: &[u8], trits: &[u8], list: &mut [u8], work: &mut [u32]) -> Result<usize, Refusal> {
    of_good_tables(rows, strings, trits, work, |cells, work| translate(cells, list, work))
}

fn translate(cells: Cells, list: &mut [u8], work: &mut [u32]) -> Result<usize, Refusal> {
    let (placing, work) = work.split_at_mut(PLACING);
    let starts = &mut work[..MOST_CELLS];
    let order = place(cells, placing).ok_or_else(|| refusal(20, 0))?;
    let count = 3 + cells.all().map(records).sum::<usize>();
    if count > MOST_RECORDS {
        return Err(refusal(21, 0));
    }
    let list = list.get_mut(..RECORD * count).ok_or_else(|| refusal(24, 0))?;

    set_starts(cells, starts);
    let mut making = Making { cells, starts, slots: [0; MOST_CELL_BITS], list: List { bytes: list, count: 0 } };
    making.constants_and_inputs();
    let mut operands = [[0; WIDEST]; 3];
    for &row in order {
        making.cell(row as usize, &mut operands);
    }
    making.outputs(&mut operands[0]);
    Ok(count)
}

/// How many records a cell takes: document 01's table of cells, column `records`.
fn records(cell: Cell) -> usize {
    match cell.kind {
        Keyword::Input | Keyword::Not | Keyword::And | Keyword::Or | Keyword::Xor => cell.width,
        Keyword::Output => width(cell.runs()),
        Keyword::Buf => 0,
        Keyword::Mux => 2 + 4 * cell.width,
        Keyword::Adc => 6 * (cell.width - 1),
        Keyword::Eq => 2 * width(cell.operands()[0]),
        Keyword::Ult | Keyword::Slt => 5 * width(cell.operands()[0]),
    }
}

struct List<'l> {
    bytes: &'l mut [u8],
    count: usize,
}

impl List<'_> {
    /// Writes the next record and gives its slot.
    fn put(&mut self, operation: u8, first: u16, second: u16) -> u16 {
        let ([f, g], [s, t]) = (first.to_le_bytes(), second.to_le_bytes());
        let slot = self.count;
        self.bytes[RECORD * slot..RECORD * (slot + 1)].copy_from_slice(&[0x47, 0x53, operation, 0, f, g, s, t]);
        self.count += 1;
        slot as u16
    }

    /// adc's last four records: the next carry of two bits and the last carry.
    fn carry(&mut self, a: u16, b: u16, last: u16) -> u16 {
        let both = self.put(AND, a, b);
        let either = self.put(OR, a, b);
        let passed = self.put(AND, either, last);
        self.put(OR, both, passed)
    }
}

struct Making<'a, 'l> {
    cells: Cells<'a>,
    /// Where each cell's bits begin.
    starts: &'a [u32],
    /// The slot of each bit.
    slots: [u16; MOST_CELL_BITS],
    list: List<'l>,
}

impl Making<'_, '_> {
    fn constants_and_inputs(&mut self) {
        for constant in 0..3 {
            self.list.put(constant, 0, 0);
        }
        let mut number = 0;
        for (cell, &start) in self.cells.all().zip(self.starts) {
            if cell.kind == Keyword::Input {
                for slot in &mut self.slots[start as usize..][..cell.width] {
                    *slot = self.list.put(INPUT, number, 0);
                    number += 1;
                }
            }
        }
    }

    fn outputs(&mut self, operand: &mut [u16; WIDEST]) {
        let mut number = 0;
        for cell in self.cells.all().filter(|cell| cell.kind == Keyword::Output) {
            let width = self.gather(cell.runs(), operand);
            for &slot in &operand[..width] {
                self.list.put(OUTPUT, slot, number);
                number += 1;
            }
        }
    }

    /// The slots of an operand's bits, bit 0 first; gives how many. Constants 0, 1 and 2 are in the slots of these numbers.
    fn gather(&self, operand: &[u32], into: &mut [u16]) -> usize {
        let mut at = 0;
        for run in self.cells.runs(operand) {
            match run {
                Run::Constant(trits) => {
                    into[at..at + trits.len()].iter_mut().zip(trits.iter().rev()).for_each(|(slot, &trit)| *slot = trit.into());
                    at += trits.len();
                }
                Run::Piece { row, from, width } => {
                    let from = self.starts[row] as usize + from;
                    into[at..at + width].iter_mut().zip(&self.slots[from..from + width]).for_each(|(slot, &made)| *slot = made);
                    at += width;
                }
            }
        }
        at
    }

    fn cell(&mut self, row: usize, room: &mut [[u16; WIDEST]; 3]) {
        let cell = self.cells.at(row);
        if cell.kind == Keyword::Output {
            return;
        }
        let mut widths = [0; 3];
        for ((operand, room), width) in cell.operands().into_iter().zip(room.iter_mut()).zip(&mut widths) {
            *width = self.gather(operand, room);
        }
        let [a, b, c] = [0, 1, 2].map(|operand| &room[operand][..widths[operand]]);
        let start = self.starts[row] as usize;
        make(&mut self.list, cell, a, b, c, &mut self.slots[start..start + cell.width]);
    }
}

/// The records of a cell, and the slots of its bits.
fn make(list: &mut List, cell: Cell, a: &[u16], b: &[u16], c: &[u16], slots: &mut [u16]) {
    match cell.kind {
        Keyword::Input | Keyword::Output => {}
        Keyword::Buf => slots.copy_from_slice(a),
        Keyword::Not => slots.iter_mut().zip(a).for_each(|(slot, &a)| *slot = list.put(NOT, a, 0)),
        Keyword::And => each(list, AND, a, b, slots),
        Keyword::Or => each(list, OR, a, b, slots),
        Keyword::Xor => each(list, XOR, a, b, slots),
        Keyword::Mux => mux(list, a[0], b, c, slots),
        Keyword::Adc => adc(list, a, b, c[0], slots),
        Keyword::Eq => slots[0] = eq(list, a, b),
        Keyword::Ult => slots[0] = below(list, a, b),
        Keyword::Slt => {
            let top = a.len() - 1;
            let last = below(list, &a[..top], &b[..top]);
            let not_b = list.put(NOT, b[top], 0);
            slots[0] = list.carry(a[top], not_b, last);
        }
    }
}

fn each(list: &mut List, operation: u8, a: &[u16], b: &[u16], slots: &mut [u16]) {
    for ((slot, &a), &b) in slots.iter_mut().zip(a).zip(b) {
        *slot = list.put(operation, a, b);
    }
}

fn mux(list: &mut List, s: u16, a: &[u16], b: &[u16], slots: &mut [u16]) {
    let not_s = list.put(NOT, s, 0);
    // 0, or X where s is X
    let unknown = list.put(XOR, s, s);
    for ((slot, &a), &b) in slots.iter_mut().zip(a).zip(b) {
        let taken = list.put(AND, s, a);
        let other = list.put(AND, not_s, b);
        let either = list.put(OR, taken, other);
        *slot = list.put(XOR, unknown, either);
    }
}

fn adc(list: &mut List, a: &[u16], b: &[u16], c: u16, slots: &mut [u16]) {
    let mut last = c;
    for ((slot, &a), &b) in slots.iter_mut().zip(a).zip(b) {
        let half = list.put(XOR, a, b);
        *slot = list.put(XOR, half, last);
        last = list.carry(a, b, last);
    }
    slots[a.len()] = last;
}

fn eq(list: &mut List, a: &[u16], b: &[u16]) -> u16 {
    let mut sum = list.put(XOR, a[0], b[0]);
    for (&a, &b) in a[1..].iter().zip(&b[1..]) {
        let differ = list.put(XOR, a, b);
        sum = list.put(OR, sum, differ);
    }
    list.put(NOT, sum, 0)
}

fn below(list: &mut List, a: &[u16], b: &[u16]) -> u16 {
    a.iter().zip(b).fold(ZERO, |last, (&a, &b)| {
        let not_a = list.put(NOT, a, 0);
        list.carry(not_a, b, last)
    })
}
