//! The three tables of a netlist and where each row lies in them, as `docs/LAYOUT.md` has it.

use std::ops::Range;

/// Words of the rows table.
pub const ROWS: usize = 26_307;
/// Bytes of the strings table.
pub const STRINGS: usize = 16_384;
/// Bytes of the trits table.
pub const TRITS: usize = 393_728;

/// Room's limits.
pub(super) const MOST_METAS: usize = 512;
pub(super) const MOST_MEMBERS: usize = 1_024;
pub(super) const MOST_IOS: usize = 64;
pub(crate) const MOST_CELLS: usize = 512;
pub(super) const MOST_RUNS: usize = 4_096;
pub(crate) const MOST_CELL_BITS: usize = 4_096;
pub(super) const MOST_OUTPUT_BITS: usize = 4_096;
pub(super) const LONGEST_STRING: usize = 255;

const META_WORDS: usize = 16;
const IO_WORDS: usize = 3;
const CELL_WORDS: usize = 9;
const RUN_WORDS: usize = 3;

const METAS_AT: usize = 3;
const MEMBERS_AT: usize = METAS_AT + MOST_METAS * META_WORDS;
const IOS_AT: usize = MEMBERS_AT + MOST_MEMBERS;
const CELLS_AT: usize = IOS_AT + MOST_IOS * IO_WORDS;
const RUNS_AT: usize = CELLS_AT + MOST_CELLS * CELL_WORDS;

/// Where the trits of runs begin; those of attributes lie before them.
pub(crate) const RUN_TRITS_AT: usize = MOST_METAS * 256;

/// A netlist laid out in words, string bytes and trits.
#[derive(Clone, Debug, PartialEq, Eq)]
pub struct Tables {
    pub rows: Vec<u32>,
    pub strings: Vec<u8>,
    pub trits: Vec<u8>,
}

impl Tables {
    /// Tables of the fixed lengths, all zero.
    pub fn new() -> Tables {
        Tables { rows: vec![0; ROWS], strings: vec![0; STRINGS], trits: vec![0; TRITS] }
    }

    /// Whether each table has its fixed length; of a longer one only that much counts.
    pub(super) fn long_enough(&self) -> bool {
        self.rows.len() >= ROWS && self.strings.len() >= STRINGS && self.trits.len() >= TRITS
    }

    pub(super) fn clear(&mut self) {
        self.rows[..ROWS].fill(0);
        self.strings[..STRINGS].fill(0);
        self.trits[..TRITS].fill(0);
    }
}

impl Default for Tables {
    fn default() -> Tables {
        Tables::new()
    }
}

pub(super) fn meta_words(row: usize) -> Range<usize> {
    METAS_AT + META_WORDS * row..METAS_AT + META_WORDS * (row + 1)
}

pub(super) fn member_word(member: usize) -> usize {
    MEMBERS_AT + member
}

pub(super) fn io_words(row: usize) -> Range<usize> {
    IOS_AT + IO_WORDS * row..IOS_AT + IO_WORDS * (row + 1)
}

pub(crate) fn cell_words(row: usize) -> Range<usize> {
    CELLS_AT + CELL_WORDS * row..CELLS_AT + CELL_WORDS * (row + 1)
}

pub(crate) fn run_words(row: usize) -> Range<usize> {
    RUNS_AT + RUN_WORDS * row..RUNS_AT + RUN_WORDS * (row + 1)
}

#[cfg(test)]
mod tests {
    use super::*;

    #[test]
    fn regions_lie_where_the_layout_says() {
        assert_eq!([meta_words(0).start, member_word(0), io_words(0).start], [3, 8_195, 9_219]);
        assert_eq!([cell_words(0).start, run_words(0).start, run_words(MOST_RUNS).start], [9_411, 14_019, ROWS]);
        assert_eq!(RUN_TRITS_AT + MOST_CELLS * 513, TRITS);
    }
}
