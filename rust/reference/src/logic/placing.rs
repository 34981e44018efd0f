//! The order in which cells are placed, "each time the lowest unplaced row whose cells are all placed", and with it the rings.
//!
//! A row that can't be placed yet waits for the first of its cells that isn't, and is looked at again from there when that one is. So
//! each run is looked at about once, whatever the order of the rows.

use super::cells::Cells;
use crate::reading::cells::Keyword;
use crate::reading::tables::MOST_CELLS;

/// Words of work space that placing uses.
pub(super) const PLACING: usize = 4 * MOST_CELLS;

/// No row, as the end of a list of waiting rows.
const NONE: u32 = u32::MAX;

struct Placing<'a, 'w> {
    cells: Cells<'a>,
    placed: [bool; MOST_CELLS],
    /// Rows that could be placed now, a bit each.
    ready: [u64; MOST_CELLS / 64],
    /// For each row the first that waits for it.
    waiting: &'w mut [u32],
    /// For each waiting row the next that waits for the same.
    next: &'w mut [u32],
    /// For each waiting row the run it waits at.
    looked: &'w mut [u32],
    order: &'w mut [u32],
    count: usize,
}

/// The rows of all cells but inputs in the order of placing; none where there is a ring.
pub(super) fn place<'w>(cells: Cells, work: &'w mut [u32]) -> Option<&'w [u32]> {
    let (order, work) = work.split_at_mut(MOST_CELLS);
    let (waiting, work) = work.split_at_mut(MOST_CELLS);
    let (next, looked) = work.split_at_mut(MOST_CELLS);
    waiting.fill(NONE);
    let mut placing =
        Placing { cells, placed: [false; MOST_CELLS], ready: [0; MOST_CELLS / 64], waiting, next, looked, order, count: 0 };
    let inputs = placing.inputs();
    placing.all();
    let count = placing.count;
    (inputs + count == cells.count()).then(|| &order[..count])
}

impl Placing<'_, '_> {
    /// Inputs are placed before all others.
    fn inputs(&mut self) -> usize {
        let mut inputs = 0;
        for (cell, placed) in self.cells.all().zip(&mut self.placed) {
            *placed = cell.kind == Keyword::Input;
            inputs += usize::from(*placed);
        }
        inputs
    }

    fn all(&mut self) {
        for row in 0..self.cells.count() {
            if !self.placed[row] && self.can_be_placed(row, 0) {
                self.put(row);
                // those woken by it are lower than any row not looked at yet
                while let Some(woken) = self.lowest_ready() {
                    self.put(woken);
                }
            }
        }
    }

    /// Whether all cells that a row reads are placed, those before this run being so; if not, it waits for the first that isn't.
    fn can_be_placed(&mut self, row: usize, from: usize) -> bool {
        match self.cells.at(row).reads_from(from).find(|&(read, _)| !self.placed[read]) {
            None => true,
            Some((read, run)) => {
                self.looked[row] = run as u32;
                self.next[row] = std::mem::replace(&mut self.waiting[read], row as u32);
                false
            }
        }
    }

    fn put(&mut self, row: usize) {
        self.placed[row] = true;
        self.order[self.count] = row as u32;
        self.count += 1;
        let mut waiting = self.waiting[row];
        while waiting != NONE {
            let woken = waiting as usize;
            waiting = self.next[woken];
            if self.can_be_placed(woken, self.looked[woken] as usize) {
                self.ready[woken / 64] |= 1 << (woken % 64);
            }
        }
    }

    fn lowest_ready(&mut self) -> Option<usize> {
        let word = self.ready.iter().position(|&rows| rows != 0)?;
        let rows = self.ready[word];
        self.ready[word] = rows & (rows - 1);
        Some(64 * word + rows.trailing_zeros() as usize)
    }
}
