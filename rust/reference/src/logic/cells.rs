//! The cells of good tables and their runs, as `docs/LAYOUT.md` has them.

use crate::reading::cells::Keyword;
use crate::reading::tables::{cell_words, run_words, RUN_TRITS_AT, TRITS};

const CELL_WORDS: usize = 9;
const RUN_WORDS: usize = 3;

#[derive(Clone, Copy)]
pub(super) struct Cells<'a> {
    rows: &'a [u32],
    runs: &'a [u32],
    trits: &'a [u8],
}

/// One cell: its kind, its width, and where its runs are.
#[derive(Clone, Copy)]
pub(super) struct Cell<'a> {
    pub kind: Keyword,
    pub width: usize,
    words: &'a [u32],
    runs: &'a [u32],
}

/// Bits of an operand that stand together, bit 0 of them first.
pub(super) enum Run<'a> {
    /// The most significant first, as tables have them.
    Constant(&'a [u8]),
    Piece {
        row: usize,
        from: usize,
        width: usize,
    },
}

impl<'a> Cells<'a> {
    pub fn of_good(rows: &'a [u32], trits: &'a [u8]) -> Cells<'a> {
        Cells {
            rows: &rows[cell_words(0).start..cell_words(rows[2] as usize).start],
            runs: &rows[run_words(0).start..],
            trits: &trits[RUN_TRITS_AT..TRITS],
        }
    }

    pub fn count(self) -> usize {
        self.rows.len() / CELL_WORDS
    }

    pub fn all(self) -> impl Iterator<Item = Cell<'a>> {
        self.rows.chunks_exact(CELL_WORDS).map(move |words| self.cell(words))
    }

    pub fn at(self, row: usize) -> Cell<'a> {
        self.cell(&self.rows[CELL_WORDS * row..CELL_WORDS * (row + 1)])
    }

    fn cell(self, words: &'a [u32]) -> Cell<'a> {
        Cell {
            kind: Keyword::numbered(words[0]).expect("good tables have kinds 1 to 12"),
            width: words[1] as usize,
            words,
            runs: self.runs,
        }
    }

    /// The runs of an operand, the least significant first.
    pub fn runs(self, operand: &'a [u32]) -> impl Iterator<Item = Run<'a>> {
        operand.rchunks_exact(RUN_WORDS).map(move |run| {
            let [what, at, width] = [0, 1, 2].map(|word| run[word] as usize);
            match what {
                0 => Run::Constant(&self.trits[at..at + width]),
                _ => Run::Piece { row: what - 1, from: at, width },
            }
        })
    }
}

impl<'a> Cell<'a> {
    /// The runs of all operands, in the order of the text.
    pub fn runs(self) -> &'a [u32] {
        let [first, a, b, c] = [5, 6, 7, 8].map(|word| self.words[word] as usize);
        &self.runs[RUN_WORDS * first..RUN_WORDS * (first + a + b + c)]
    }

    pub fn operands(self) -> [&'a [u32]; 3] {
        let (a, rest) = self.runs().split_at(RUN_WORDS * self.words[6] as usize);
        let (b, c) = rest.split_at(RUN_WORDS * self.words[7] as usize);
        [a, b, c]
    }

    /// The rows whose bits this cell reads, as far as the runs from this one on tell, each with its run.
    pub fn reads_from(self, run: usize) -> impl Iterator<Item = (usize, usize)> + 'a {
        let runs = self.runs()[RUN_WORDS * run..].chunks_exact(RUN_WORDS).zip(run..);
        runs.filter(|(words, _)| words[0] > 0).map(|(words, run)| (words[0] as usize - 1, run))
    }
}

/// How many bits an operand has.
pub(super) fn width(operand: &[u32]) -> usize {
    operand.chunks_exact(RUN_WORDS).map(|run| run[2] as usize).sum()
}

/// Where each cell's bits begin when all stand one behind the other; gives how many input bits and how many output bits there are.
pub(super) fn set_starts(cells: Cells, starts: &mut [u32]) -> (usize, usize) {
    let (mut at, mut inputs, mut outputs) = (0, 0, 0);
    for (cell, start) in cells.all().zip(starts) {
        *start = at as u32;
        at += cell.width;
        match cell.kind {
            Keyword::Input => inputs += cell.width,
            Keyword::Output => outputs += width(cell.runs()),
            _ => {}
        }
    }
    (inputs, outputs)
}
