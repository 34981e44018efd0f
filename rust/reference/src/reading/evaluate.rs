//! The output bits of a netlist, found by asking: an output asks its operand's bits, those ask their cells, and each cell is worked out
//! once. Bits are `Some(false)`, `Some(true)` and `None` for X.

use super::tables::{cell_words, run_words, RUN_TRITS_AT};
use super::Tables;
use crate::{refusal, Refusal};

pub(super) type Trit = Option<bool>;

pub(super) const INPUT: u32 = 1;
pub(super) const OUTPUT: u32 = 2;

/// A byte for each output bit of tables that reading has made: 20, 23, or the bits, by document 01's orders.
pub fn evaluate(tables: &Tables, ins: &[u8]) -> Result<Vec<u8>, Refusal> {
    let cells = Cell::all(tables);
    if ringed(&cells) {
        return Err(refusal(20, 0));
    }
    let asked: usize = cells.iter().filter(|cell| cell.kind == INPUT).map(|cell| cell.width).sum();
    if ins.len() != asked || ins.iter().any(|&byte| byte > 2) {
        return Err(refusal(23, 0));
    }
    let mut known = Known { cells: &cells, bits: vec![None; cells.len()] };
    let mut from = 0;
    for (row, cell) in cells.iter().enumerate().filter(|(_, cell)| cell.kind == INPUT) {
        known.bits[row] = Some(ins[from..from + cell.width].iter().map(|&byte| trit(byte)).collect());
        from += cell.width;
    }
    let outputs = cells.iter().filter(|cell| cell.kind == OUTPUT);
    Ok(outputs.flat_map(|cell| known.operand(&cell.operands[0])).map(byte).collect())
}

pub(super) fn trit(byte: u8) -> Trit {
    [Some(false), Some(true), None][usize::from(byte)]
}

pub(super) fn byte(trit: Trit) -> u8 {
    trit.map_or(2, u8::from)
}

/// A bit of an operand: a constant, or a bit of a cell.
#[derive(Clone, Copy)]
pub(super) enum Bit {
    Constant(Trit),
    Of(usize, usize),
}

pub(super) struct Cell {
    pub(super) kind: u32,
    pub(super) width: usize,
    /// Bits from 0 up.
    pub(super) operands: [Vec<Bit>; 3],
}

impl Cell {
    pub(super) fn all(tables: &Tables) -> Vec<Cell> {
        (0..tables.rows[2] as usize).map(|row| Cell::new(tables, row)).collect()
    }

    fn new(tables: &Tables, row: usize) -> Cell {
        let words = &tables.rows[cell_words(row)];
        let mut first = words[5] as usize;
        let mut operand = |count: u32| {
            let runs = first..first + count as usize;
            first = runs.end;
            runs.rev().flat_map(|run| run_bits(tables, run)).collect()
        };
        let operands = [operand(words[6]), operand(words[7]), operand(words[8])];
        Cell { kind: words[0], width: words[1] as usize, operands }
    }

    pub(super) fn asks(&self) -> impl Iterator<Item = usize> + '_ {
        self.operands.iter().flatten().filter_map(|bit| match bit {
            Bit::Of(row, _) => Some(*row),
            Bit::Constant(_) => None,
        })
    }
}

/// The bits of a run, from its lowest up.
fn run_bits(tables: &Tables, run: usize) -> Vec<Bit> {
    let [cell, at, width] = [0, 1, 2].map(|word| tables.rows[run_words(run)][word] as usize);
    match cell {
        0 => tables.trits[RUN_TRITS_AT + at..][..width].iter().rev().map(|&byte| Bit::Constant(trit(byte))).collect(),
        _ => (at..at + width).map(|bit| Bit::Of(cell - 1, bit)).collect(),
    }
}

/// "A ring: a cell reached from itself"
pub(super) fn ringed(cells: &[Cell]) -> bool {
    (0..cells.len()).any(|row| reaches_itself(cells, row))
}

fn reaches_itself(cells: &[Cell], row: usize) -> bool {
    let mut seen = vec![false; cells.len()];
    let mut left: Vec<usize> = cells[row].asks().collect();
    while let Some(asked) = left.pop() {
        if asked == row {
            return true;
        }
        if !seen[asked] {
            seen[asked] = true;
            left.extend(cells[asked].asks());
        }
    }
    false
}

struct Known<'a> {
    cells: &'a [Cell],
    bits: Vec<Option<Vec<Trit>>>,
}

impl Known<'_> {
    fn operand(&mut self, bits: &[Bit]) -> Vec<Trit> {
        let ask = |bit: &Bit| match *bit {
            Bit::Constant(trit) => trit,
            Bit::Of(row, bit) => self.cell(row)[bit],
        };
        bits.iter().map(ask).collect()
    }

    fn cell(&mut self, row: usize) -> &[Trit] {
        if self.bits[row].is_none() {
            let cell = &self.cells[row];
            let [a, b, c] = [0, 1, 2].map(|operand| self.operand(&cell.operands[operand]));
            self.bits[row] = Some(value(cell.kind, &a, &b, &c));
        }
        self.bits[row].as_deref().unwrap_or(&[])
    }
}

/// Document 01's table of cells, column `value`.
fn value(kind: u32, a: &[Trit], b: &[Trit], c: &[Trit]) -> Vec<Trit> {
    let each = |gate: fn(Trit, Trit) -> Trit| a.iter().zip(b).map(|(&a, &b)| gate(a, b)).collect();
    match kind {
        3 => a.to_vec(),
        4 => a.iter().map(|&a| not(a)).collect(),
        5 => each(and),
        6 => each(or),
        7 => each(xor),
        8 => mux(a[0], b, c),
        9 => adc(a, b, c[0]),
        10 => vec![eq(a, b)],
        11 => vec![below(a, b, a.len())],
        12 => vec![below(a, b, a.len() - 1)],
        _ => vec![],
    }
}

pub(super) fn not(a: Trit) -> Trit {
    a.map(|a| !a)
}

pub(super) fn and(a: Trit, b: Trit) -> Trit {
    if a == Some(false) || b == Some(false) {
        return Some(false);
    }
    Some(a? && b?)
}

pub(super) fn or(a: Trit, b: Trit) -> Trit {
    not(and(not(a), not(b)))
}

pub(super) fn xor(a: Trit, b: Trit) -> Trit {
    Some(a? != b?)
}

fn mux(s: Trit, a: &[Trit], b: &[Trit]) -> Vec<Trit> {
    match s {
        Some(true) => a.to_vec(),
        Some(false) => b.to_vec(),
        None => vec![None; a.len()],
    }
}

/// "1 if two or more of the three are 1, 0 if two or more are 0, else X"
fn carry(three: [Trit; 3]) -> Trit {
    let many = |value| three.iter().filter(|&&trit| trit == Some(value)).count() > 1;
    [true, false].into_iter().find(|&value| many(value))
}

fn adc(a: &[Trit], b: &[Trit], c: Trit) -> Vec<Trit> {
    let mut last = c;
    let mut sum = Vec::new();
    for (&a, &b) in a.iter().zip(b) {
        sum.push(xor(xor(a, b), last));
        last = carry([a, b, last]);
    }
    sum.push(last);
    sum
}

fn eq(a: &[Trit], b: &[Trit]) -> Trit {
    let places = || a.iter().zip(b).map(|(&a, &b)| xor(a, b));
    if places().any(|differ| differ == Some(true)) {
        return Some(false);
    }
    places().all(|differ| differ == Some(false)).then(|| true)
}

/// "start at 0; from bit 0 up, the carry rule over not a, b and the last"; from the place `top` on a and not b.
fn below(a: &[Trit], b: &[Trit], top: usize) -> Trit {
    let places = a.iter().zip(b).enumerate();
    places.fold(
        Some(false),
        |last, (place, (&a, &b))| if place < top { carry([not(a), b, last]) } else { carry([a, not(b), last]) },
    )
}

#[cfg(test)]
mod tests {
    use super::*;
    use crate::read;

    fn told(text: &str, ins: &[u8]) -> Result<Vec<u8>, u32> {
        evaluate(&read(text.as_bytes()).unwrap(), ins).map_err(|refusal| refusal.number)
    }

    #[test]
    fn worked_lines() {
        let cell = |cell: &str, width: usize| told(&format!("%0:{width} = {cell}\n%300:0 = output \"y\" %0:{width}\n"), &[]);
        assert_eq!(cell("mux X 1 1", 1), Ok(vec![2]));
        assert_eq!(cell("eq 1X 0X", 1), Ok(vec![0]));
        assert_eq!(cell("eq 1X 10", 1), Ok(vec![2]));
        assert_eq!(cell("ult 0X 10", 1), Ok(vec![1]));
        assert_eq!(cell("slt 10 01", 1), Ok(vec![1]));
        assert_eq!(cell("adc 0 X 0", 2), Ok(vec![2, 0]));
    }

    #[test]
    fn rings_and_assignments_are_refused() {
        assert_eq!(told("%0:1 = buf %0\n", &[]), Err(20));
        assert_eq!(told("%0:1 = buf %1\n%1:1 = not %0\n", &[3]), Err(20));
        assert_eq!(told("%0:2 = input \"a\"\n", &[0]), Err(23));
        assert_eq!(told("%0:2 = input \"a\"\n", &[0, 3]), Err(23));
        assert_eq!(told("%0:2 = input \"a\"\n%2:0 = output \"y\" [%0+0 %0+1]\n", &[0, 1]), Ok(vec![1, 0]));
    }
}
