//! The evaluation: a byte for each output bit of a netlist, for a byte for each input bit.

use super::cells::{set_starts, Cell, Cells, Run};
use super::of_good_tables;
use super::placing::{place, PLACING};
use super::trit::{and, carry, not, or, xor, X};
use crate::reading::cells::Keyword;
use crate::reading::tables::{MOST_CELLS, MOST_CELL_BITS};
use crate::{refusal, Refusal};

/// The widest operand.
const WIDEST: usize = 256;

/// Evaluates the netlist of three tables: 1, 15, 20, 23, 24, or how many output bits there are, which then stand in `outs`.
pub fn evaluate_into(
    rows: &[u32],
    strings: &[u8],
    trits: &[u8],
    ins: &[u8],
    outs: &mut [u8],
    work: &mut [u32],
) -> Result<usize, Refusal> {
    of_good_tables(rows, strings, trits, work, |cells, work| evaluate(cells, ins, outs, work))
}

fn evaluate(cells: Cells, ins: &[u8], outs: &mut [u8], work: &mut [u32]) -> Result<usize, Refusal> {
    let (placing, work) = work.split_at_mut(PLACING);
    let starts = &mut work[..MOST_CELLS];
    let order = place(cells, placing).ok_or_else(|| refusal(20, 0))?;
    let (inputs, count) = set_starts(cells, starts);
    if ins.len() != inputs || ins.iter().any(|&bit| bit > X) {
        return Err(refusal(23, 0));
    }
    let outs = outs.get_mut(..count).ok_or_else(|| refusal(24, 0))?;

    let mut values = Values { cells, starts, bits: [0; MOST_CELL_BITS] };
    values.assign(ins);
    let mut operands = [[0; WIDEST]; 3];
    for &row in order {
        values.work_out(row as usize, &mut operands);
    }
    let mut at = 0;
    for output in cells.all().filter(|cell| cell.kind == Keyword::Output) {
        at += values.gather(output.runs(), &mut outs[at..]);
    }
    Ok(count)
}

struct Values<'a> {
    cells: Cells<'a>,
    /// Where each cell's bits begin.
    starts: &'a [u32],
    bits: [u8; MOST_CELL_BITS],
}

impl Values<'_> {
    fn assign(&mut self, mut ins: &[u8]) {
        for (cell, &start) in self.cells.all().zip(self.starts) {
            if cell.kind == Keyword::Input {
                let (here, rest) = ins.split_at(cell.width);
                self.bits[start as usize..][..cell.width].copy_from_slice(here);
                ins = rest;
            }
        }
    }

    /// The bits of an operand, bit 0 first; gives how many.
    fn gather(&self, operand: &[u32], into: &mut [u8]) -> usize {
        let mut at = 0;
        for run in self.cells.runs(operand) {
            match run {
                Run::Constant(trits) => {
                    into[at..at + trits.len()].iter_mut().zip(trits.iter().rev()).for_each(|(bit, &trit)| *bit = trit);
                    at += trits.len();
                }
                Run::Piece { row, from, width } => {
                    let from = self.starts[row] as usize + from;
                    into[at..at + width].iter_mut().zip(&self.bits[from..from + width]).for_each(|(bit, &value)| *bit = value);
                    at += width;
                }
            }
        }
        at
    }

    fn work_out(&mut self, row: usize, room: &mut [[u8; WIDEST]; 3]) {
        let cell = self.cells.at(row);
        if cell.kind == Keyword::Output {
            return;
        }
        let mut widths = [0; 3];
        for ((operand, room), width) in cell.operands().into_iter().zip(room.iter_mut()).zip(&mut widths) {
            *width = self.gather(operand, room);
        }
        let [a, b, c] = [0, 1, 2].map(|operand| &room[operand][..widths[operand]]);
        let start = self.starts[row] as usize;
        value(cell, a, b, c, &mut self.bits[start..start + cell.width]);
    }
}

/// Document 01's table of cells, column `value`.
fn value(cell: Cell, a: &[u8], b: &[u8], c: &[u8], bits: &mut [u8]) {
    match cell.kind {
        Keyword::Input | Keyword::Output => {}
        Keyword::Buf => bits.copy_from_slice(a),
        Keyword::Not => bits.iter_mut().zip(a).for_each(|(bit, &a)| *bit = not(a)),
        Keyword::And => each(bits, a, b, and),
        Keyword::Or => each(bits, a, b, or),
        Keyword::Xor => each(bits, a, b, xor),
        Keyword::Mux => match a[0] {
            1 => bits.copy_from_slice(b),
            0 => bits.copy_from_slice(c),
            _ => bits.fill(X),
        },
        Keyword::Adc => add(bits, a, b, c[0]),
        Keyword::Eq => bits[0] = equal(a, b),
        Keyword::Ult => bits[0] = below(0, a, b),
        Keyword::Slt => {
            let top = a.len() - 1;
            // "the top place using a and not b"
            bits[0] = carry(a[top], not(b[top]), below(0, &a[..top], &b[..top]));
        }
    }
}

#[inline]
fn each(bits: &mut [u8], a: &[u8], b: &[u8], gate: impl Fn(u8, u8) -> u8) {
    for ((bit, &a), &b) in bits.iter_mut().zip(a).zip(b) {
        *bit = gate(a, b);
    }
}

fn add(bits: &mut [u8], a: &[u8], b: &[u8], c: u8) {
    let mut last = c;
    for ((bit, &a), &b) in bits.iter_mut().zip(a).zip(b) {
        *bit = xor(xor(a, b), last);
        last = carry(a, b, last);
    }
    bits[a.len()] = last;
}

fn equal(a: &[u8], b: &[u8]) -> u8 {
    // the sum of the places that differ, by document 01's or: a sure difference decides
    not(a.iter().zip(b).fold(0, |sum, (&a, &b)| or(sum, xor(a, b))))
}

fn below(first: u8, a: &[u8], b: &[u8]) -> u8 {
    a.iter().zip(b).fold(first, |last, (&a, &b)| carry(not(a), b, last))
}
