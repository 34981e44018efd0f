//! The check of lent tables, from `docs/LAYOUT.md` and document 01's Room alone: whether they are the layout of a netlist that keeps
//! every rule of 9 to 14.

use super::cells::Keyword;
use super::tables::*;
use crate::{refusal, Refusal};
use std::collections::HashSet;

/// Kinds of metadata rows, as the layout numbers them.
const SET: u32 = 1;
const SOURCE: u32 = 2;
const NAMED_SCOPE: u32 = 3;
const INDEXED_SCOPE: u32 = 4;
const IDENT: u32 = 5;
const BITS: u32 = 6;
const INTEGER: u32 = 7;
const STRING: u32 = 8;

/// The largest number of a line or column: a `#` number that is not negative.
const LAST_LINE: u32 = i32::MAX as u32;

/// The check of tables: 1 where one is short, 15 where they aren't good.
pub fn check(rows: &[u32], strings: &[u8], trits: &[u8]) -> Result<(), Refusal> {
    if rows.len() < ROWS || strings.len() < STRINGS || trits.len() < TRITS {
        return Err(refusal(1, 0));
    }
    let (meta_trits, run_trits) = trits[..TRITS].split_at(RUN_TRITS_AT);
    let check = Check { rows: &rows[..ROWS], strings: &strings[..STRINGS], meta_trits, run_trits, used: Used::default() };
    match check.all() {
        true => Ok(()),
        false => Err(refusal(15, 0)),
    }
}

/// How much of each pool the rows looked at so far have taken.
#[derive(Default)]
struct Used {
    strings: usize,
    members: usize,
    meta_trits: usize,
    runs: usize,
    run_trits: usize,
    cell_bits: usize,
    output_bits: usize,
}

struct Check<'a> {
    rows: &'a [u32],
    strings: &'a [u8],
    meta_trits: &'a [u8],
    run_trits: &'a [u8],
    used: Used,
}

impl<'a> Check<'a> {
    fn all(mut self) -> bool {
        let [metas, ios, cells] = [0, 1, 2].map(|word| self.rows[word] as usize);
        metas <= MOST_METAS
            && ios <= MOST_IOS
            && cells <= MOST_CELLS
            && (0..metas).all(|row| self.meta(row))
            && (0..ios).all(|row| self.io(row))
            && (0..cells).all(|row| self.cell(row))
            && self.names_are_distinct(ios, cells)
            && self.nothing_behind(metas, ios, cells)
    }

    fn nothing_behind(&self, metas: usize, ios: usize, cells: usize) -> bool {
        no_words(&self.rows[meta_words(metas).start..member_word(0)])
            && no_words(&self.rows[member_word(self.used.members)..io_words(0).start])
            && no_words(&self.rows[io_words(ios).start..cell_words(0).start])
            && no_words(&self.rows[cell_words(cells).start..run_words(0).start])
            && no_words(&self.rows[run_words(self.used.runs).start..])
            && no_bytes(&self.strings[self.used.strings..])
            && no_bytes(&self.meta_trits[self.used.meta_trits..])
            && no_bytes(&self.run_trits[self.used.run_trits..])
    }

    /// A string that must be the next one, of at most 255 bytes.
    fn string(&mut self, start: u32, size: u32) -> bool {
        let placed = start as usize == self.used.strings && size as usize <= LONGEST_STRING;
        self.used.strings += size as usize;
        placed && self.used.strings <= STRINGS
    }

    fn meta(&mut self, row: usize) -> bool {
        let words = &self.rows[meta_words(row)];
        let starts = self.string(words[1], words[2])
            && self.string(words[3], words[4])
            && words[5] as usize == self.used.members
            && words[7] as usize == self.used.meta_trits;
        starts
            && has_the_fields_of_its_kind(words)
            && self.references(row, words)
            && self.members(row, words[6])
            && self.value(words[8])
    }

    /// `in=` names an earlier scope, `src=` an earlier source.
    fn references(&self, row: usize, words: &[u32]) -> bool {
        let (parent, source) = (words[9] as usize, words[10] as usize);
        parent <= row
            && source <= row
            && (parent == 0 || matches!(self.kind(parent - 1), NAMED_SCOPE | INDEXED_SCOPE))
            && (source == 0 || self.kind(source - 1) == SOURCE)
    }

    fn kind(&self, row: usize) -> u32 {
        self.rows[meta_words(row).start]
    }

    /// The next members of a set: earlier rows that are no sets.
    fn members(&mut self, row: usize, count: u32) -> bool {
        let first = self.used.members;
        let last = first + count as usize;
        self.used.members = last;
        last <= MOST_MEMBERS
            && self.rows[member_word(first)..member_word(last)]
                .iter()
                .all(|&member| (1..=row as u32).contains(&member) && self.kind(member as usize - 1) != SET)
    }

    /// The next trits of an attribute, at most 256 by the fields of its kind.
    fn value(&mut self, width: u32) -> bool {
        let first = self.used.meta_trits;
        self.used.meta_trits += width as usize;
        are_trits(&self.meta_trits[first..self.used.meta_trits])
    }

    fn io(&mut self, row: usize) -> bool {
        let words = &self.rows[io_words(row)];
        self.string(words[0], words[1]) && words[1] >= 1 && (1..=256).contains(&words[2])
    }

    fn cell(&mut self, row: usize) -> bool {
        let words = &self.rows[cell_words(row)];
        let keyword = match Keyword::numbered(words[0]) {
            Some(keyword) => keyword,
            None => return false,
        };
        let width = words[1];
        let sound = self.string(words[2], words[3])
            && (words[3] > 0) == keyword.has_name()
            && words[4] <= self.rows[0]
            && words[5] as usize == self.used.runs
            && if keyword == Keyword::Output { width == 0 } else { (1..=256).contains(&width) };
        if !sound {
            return false;
        }
        let mut widths = [0; 3];
        for (operand, &runs) in words[6..].iter().enumerate() {
            let allowed = operand < keyword.operands();
            match self.operand(runs) {
                Some(0) if !allowed => {}
                Some(wide) if allowed && (1..=256).contains(&wide) => widths[operand] = wide,
                _ => return false,
            }
        }
        self.used.cell_bits += width as usize;
        if keyword == Keyword::Output {
            self.used.output_bits += widths[0] as usize;
        }
        keyword.allows(u64::from(width), widths)
            && self.used.cell_bits <= MOST_CELL_BITS
            && self.used.output_bits <= MOST_OUTPUT_BITS
    }

    /// The width of an operand of so many runs, the next ones; none where one of them isn't good.
    fn operand(&mut self, runs: u32) -> Option<u64> {
        let last = self.used.runs + runs as usize;
        if last > MOST_RUNS {
            return None;
        }
        let region = &self.rows[run_words(self.used.runs).start..run_words(last).start];
        self.used.runs = last;
        let mut width = 0;
        let mut before: Option<&[u32]> = None;
        for run in region.chunks_exact(3) {
            if !self.run(run) || joins(before, run) {
                return None;
            }
            before = Some(run);
            width += u64::from(run[2]);
        }
        Some(width)
    }

    /// Constant bits that are the next ones, or bits that a cell has.
    fn run(&mut self, run: &[u32]) -> bool {
        let (what, at, width) = (run[0] as usize, run[1], run[2]);
        if !(1..=256).contains(&width) {
            return false;
        }
        if what == 0 {
            let first = self.used.run_trits;
            self.used.run_trits += width as usize;
            return at as usize == first && self.run_trits.get(first..self.used.run_trits).map_or(false, are_trits);
        }
        what <= self.rows[2] as usize && at < 256 && at + width <= self.rows[cell_words(what - 1).start + 1]
    }

    /// No name stands twice among pads, inputs or outputs. The strings of all rows are known to be there.
    fn names_are_distinct(&self, ios: usize, cells: usize) -> bool {
        let mut pads = HashSet::with_capacity(ios);
        let mut named = [HashSet::with_capacity(cells), HashSet::new()];
        (0..ios).map(|row| &self.rows[io_words(row)]).all(|words| pads.insert(self.named(&words[..2])))
            && (0..cells)
                .map(|row| &self.rows[cell_words(row)])
                .filter(|words| words[3] > 0)
                .all(|words| named[words[0] as usize - 1].insert(self.named(&words[2..4])))
    }

    fn named(&self, words: &[u32]) -> &'a [u8] {
        &self.strings[words[0] as usize..][..words[1] as usize]
    }
}

/// Whether what a kind does not have is zero, and what it has is in its range. Starts and references are looked at elsewhere.
fn has_the_fields_of_its_kind(words: &[u32]) -> bool {
    match *words {
        [SET, _, 0, _, 0, _, 2..=1_024, _, 0, 0, 0, 0, 0, 0, 0, 0] => true,
        [SOURCE, _, 1..=255, _, 0, _, 0, _, 0, 0, 0, 0, line, column, last_line, last_column] => {
            line.max(column).max(last_line).max(last_column) <= LAST_LINE && (line, column) <= (last_line, last_column)
        }
        [NAMED_SCOPE, _, 1..=255, _, 0, _, 0, _, 0, _, _, 0, 0, 0, 0, 0] => true,
        [INDEXED_SCOPE, _, 0, _, 0, _, 0, _, 0, _, _, _, 0, 0, 0, 0] => true,
        [IDENT, _, 1..=255, _, 0, _, 0, _, 0, 1..=512, 0, 0, 0, 0, 0, 0] => true,
        [BITS, _, 1..=255, _, 0, _, 0, _, 1..=256, 0, 0, 0, 0, 0, 0, 0] => true,
        [INTEGER, _, 1..=255, _, 0, _, 0, _, 0, 0, 0, _, 0, 0, 0, 0] => true,
        [STRING, _, 1..=255, _, _, _, 0, _, 0, 0, 0, 0, 0, 0, 0, 0] => true,
        _ => false,
    }
}

/// Whether two neighbours could be one run.
fn joins(before: Option<&[u32]>, run: &[u32]) -> bool {
    before.map_or(false, |before| before[0] == run[0] && (run[0] == 0 || run[1] + run[2] == before[1]))
}

fn are_trits(bytes: &[u8]) -> bool {
    bytes.iter().all(|trit| *trit <= 2)
}

/// Whether all words are zero: a piece of the table at a time, so that several words can be looked at at once.
fn no_words(words: &[u32]) -> bool {
    words.chunks(256).all(|piece| piece.iter().fold(0, |all, word| all | word) == 0)
}

fn no_bytes(bytes: &[u8]) -> bool {
    bytes.chunks(1024).all(|piece| piece.iter().fold(0, |all, byte| all | byte) == 0)
}
