//! The reader in plain Rust: a text's netlist laid out in tables, or the first refusal.
//!
//! Each declaration is read once: its form token by token (5 to 8), while its widths, references and runs are gathered, then the rules
//! 9 to 13. What only the whole text decides comes last: pieces of cells declared later (14), and the order of strings.

mod canonical;
pub(crate) mod cells;
mod checking;
mod evaluate;
#[cfg(test)]
mod examples;
mod full_name;
mod list;
mod meta;
mod names;
mod operands;
mod printing;
pub(crate) mod tables;

pub use canonical::canonical;
pub use checking::check;
pub use evaluate::evaluate;
pub use full_name::full_name;
pub use list::{run, translate, Ran};
pub use printing::{print_by_buffer, print_into};
pub use tables::{Tables, ROWS, STRINGS, TRITS};

use crate::{refusal, whole, Kind, Reader, Refusal, Token, LARGEST};
use names::{Name, Names};
use operands::Waiting;
use tables::*;

/// What reading needs beside the text and the tables. It is made once and serves any number of readings.
#[derive(Clone, Debug)]
pub struct Work {
    metas: Numbers,
    cells: Numbers,
    ios: Names,
    inputs: Names,
    outputs: Names,
    waiting: Vec<Waiting>,
}

impl Work {
    pub fn new() -> Work {
        Work {
            metas: Numbers::new(),
            cells: Numbers::new(),
            ios: Names::new(),
            inputs: Names::new(),
            outputs: Names::new(),
            waiting: Vec::new(),
        }
    }

    fn clear(&mut self) {
        self.metas.clear();
        self.cells.clear();
        self.ios.clear();
        self.inputs.clear();
        self.outputs.clear();
        self.waiting.clear();
    }

    /// Makes all of it zero, whatever it holds.
    fn wipe(&mut self) {
        self.metas.wipe();
        self.cells.wipe();
        self.ios.clear();
        self.inputs.clear();
        self.outputs.clear();
        self.waiting.clear();
    }
}

impl Default for Work {
    fn default() -> Work {
        Work::new()
    }
}

/// The author's numbers of one sort, each with its row.
#[derive(Clone, Debug)]
struct Numbers {
    /// For each number its row plus one, 0 where it is not declared.
    rows: Vec<u16>,
    /// The number of each row.
    declared: Vec<u16>,
}

impl Numbers {
    fn new() -> Numbers {
        Numbers { rows: vec![0; LARGEST as usize + 1], declared: Vec::with_capacity(MOST_CELLS.max(MOST_METAS)) }
    }

    fn row(&self, number: u32) -> Option<usize> {
        usize::from(self.rows[number as usize]).checked_sub(1)
    }

    fn declare(&mut self, number: u32) {
        self.declared.push(number as u16);
        self.rows[number as usize] = self.declared.len() as u16;
    }

    fn count(&self) -> usize {
        self.declared.len()
    }

    fn clear(&mut self) {
        for number in self.declared.drain(..) {
            self.rows[usize::from(number)] = 0;
        }
    }

    fn wipe(&mut self) {
        self.rows.fill(0);
        self.declared.clear();
    }
}

/// Reads a text into new tables.
pub fn read(text: &[u8]) -> Result<Tables, Refusal> {
    let mut tables = Tables::new();
    read_into(text, &mut tables, &mut Work::new())?;
    Ok(tables)
}

/// Reads a text into these tables, whatever they held. A refused text leaves them zero, but for 1, which changes nothing.
pub fn read_into(text: &[u8], tables: &mut Tables, work: &mut Work) -> Result<(), Refusal> {
    if !tables.long_enough() {
        return Err(refusal(1, 0));
    }
    let read = read_with_clear(text, tables, work);
    work.clear();
    read
}

/// The same in a work space that may hold anything: as it is not known to be clear, all of it is made zero before and after.
pub fn read_into_lent(text: &[u8], tables: &mut Tables, work: &mut Work) -> Result<(), Refusal> {
    if !tables.long_enough() {
        return Err(refusal(1, 0));
    }
    work.wipe();
    let read = read_with_clear(text, tables, work);
    work.wipe();
    read
}

/// The same with a work space that is clear before; what it has used stays in it.
fn read_with_clear(text: &[u8], tables: &mut Tables, work: &mut Work) -> Result<(), Refusal> {
    tables.clear();
    whole(text)?;
    let read = Reading::new(text, tables, work).all();
    if read.is_err() {
        tables.clear();
    }
    read
}

/// A text being read, and what was counted so far.
struct Reading<'a> {
    tokens: Reader<'a>,
    rows: &'a mut [u32],
    strings: &'a mut [u8],
    trits: &'a mut [u8],
    work: &'a mut Work,
    ios: usize,
    members: usize,
    runs: usize,
    meta_trits: usize,
    run_trits: usize,
    string_bytes: usize,
    cell_bits: usize,
    output_bits: usize,
    /// The leftmost piece that asks for bits that a cell declared before it does not have.
    lost: Option<usize>,
}

impl<'a> Reading<'a> {
    fn new(text: &'a [u8], tables: &'a mut Tables, work: &'a mut Work) -> Reading<'a> {
        Reading {
            tokens: Reader::new(text),
            rows: &mut tables.rows[..ROWS],
            strings: &mut tables.strings[..STRINGS],
            trits: &mut tables.trits[..TRITS],
            work,
            ios: 0,
            members: 0,
            runs: 0,
            meta_trits: 0,
            run_trits: 0,
            string_bytes: 0,
            cell_bits: 0,
            output_bits: 0,
            lost: None,
        }
    }

    fn all(mut self) -> Result<(), Refusal> {
        while let Some(token) = self.tokens.next_token()? {
            let place = token.place;
            match token.kind {
                Kind::LineEnd => {}
                Kind::Meta(index) => self.meta(place, index)?,
                Kind::Cell { index, offset: None, width: Some(width), times: None } => self.cell(place, index, width)?,
                Kind::Io { name: Some(size), offset: None, width: Some(width) } => self.io(place, size, width)?,
                Kind::Placeholder { .. } => return Err(refusal(8, place)),
                Kind::Word if self.written(token) == b"set" => return Err(refusal(8, place)),
                _ => return Err(refusal(7, place)),
            }
        }
        match self.first_lost() {
            Some(place) => Err(refusal(14, place)),
            None => {
                self.settle();
                Ok(())
            }
        }
    }

    /// `&"name":w = io`, from the `=` on.
    fn io(&mut self, place: usize, size: u32, width: u32) -> Result<(), Refusal> {
        self.delimiter(b'=')?;
        let keyword = self.token()?;
        match keyword.kind {
            Kind::Word if self.written(keyword) == b"io" => {}
            Kind::Word => return Err(refusal(8, keyword.place)),
            _ => return Err(refusal(7, keyword.place)),
        }
        self.line_end()?;
        let name = Name { place: place + 2, size: size as usize };
        let told = if !self.work.ios.take(self.tokens.text, name) {
            Some(9)
        } else if name.size == 0 {
            Some(11)
        } else if !(1..=256).contains(&width) {
            Some(12)
        } else if self.ios == MOST_IOS || !self.strings_fit(&[name]) {
            Some(13)
        } else {
            None
        };
        if let Some(number) = told {
            return Err(refusal(number, place));
        }
        self.rows[io_words(self.ios)].copy_from_slice(&[name.place as u32, size, width]);
        self.ios += 1;
        self.string_bytes += name.size;
        Ok(())
    }

    /// The leftmost piece that does not resolve, now that every cell is declared.
    fn first_lost(&self) -> Option<usize> {
        let lost = |piece: &&Waiting| match self.work.cells.row(piece.index) {
            Some(row) => piece.reach > self.rows[cell_words(row)][1],
            None => true,
        };
        let late = self.work.waiting.iter().find(lost).map(|piece| piece.place);
        match (self.lost, late) {
            (Some(a), Some(b)) => Some(a.min(b)),
            (a, b) => a.or(b),
        }
    }

    /// The counts, the strings in the order of the canonical text, and rows for the author's numbers in runs.
    fn settle(&mut self) {
        let (metas, cells) = (self.work.metas.count(), self.work.cells.count());
        self.rows[..3].copy_from_slice(&[metas as u32, self.ios as u32, cells as u32]);
        let mut at = 0;
        for row in 0..metas {
            let start = meta_words(row).start;
            at = self.settle_string(at, start + 1);
            at = self.settle_string(at, start + 3);
        }
        for row in 0..self.ios {
            at = self.settle_string(at, io_words(row).start);
        }
        for row in 0..cells {
            at = self.settle_string(at, cell_words(row).start + 2);
        }
        for run in self.rows[run_words(0).start..run_words(self.runs).start].chunks_exact_mut(3) {
            if run[0] != 0 {
                run[0] = u32::from(self.work.cells.rows[run[0] as usize - 1]);
            }
        }
    }

    /// Writes the string whose place and size are in this word and the next, and puts its start there; returns where it ends.
    fn settle_string(&mut self, at: usize, word: usize) -> usize {
        let name = Name { place: self.rows[word] as usize, size: self.rows[word + 1] as usize };
        self.rows[word] = at as u32;
        let end = at + name.size;
        if name.size > 0 {
            name.write(self.tokens.text, &mut self.strings[at..end]);
        }
        end
    }

    /// Room's limits on strings, these being added to those before.
    fn strings_fit(&self, names: &[Name]) -> bool {
        let more: usize = names.iter().map(|name| name.size).sum();
        names.iter().all(|name| name.size <= LONGEST_STRING) && self.string_bytes + more <= STRINGS
    }

    /// The next token; the text's end is refused 7 at its length.
    #[inline]
    fn token(&mut self) -> Result<Token, Refusal> {
        match self.tokens.next_token()? {
            Some(token) => Ok(token),
            None => Err(self.early_end()),
        }
    }

    fn early_end(&self) -> Refusal {
        refusal(7, self.tokens.text.len())
    }

    /// The next token between brackets, where a line end is white space.
    #[inline]
    fn inside(&mut self) -> Result<Token, Refusal> {
        loop {
            let token = self.token()?;
            if !matches!(token.kind, Kind::LineEnd) {
                return Ok(token);
            }
        }
    }

    fn delimiter(&mut self, byte: u8) -> Result<(), Refusal> {
        let token = self.token()?;
        if matches!(token.kind, Kind::Delimiter(found) if found == byte) {
            Ok(())
        } else {
            Err(refusal(7, token.place))
        }
    }

    fn line_end(&mut self) -> Result<(), Refusal> {
        let token = self.token()?;
        if matches!(token.kind, Kind::LineEnd) {
            Ok(())
        } else {
            Err(refusal(7, token.place))
        }
    }

    /// A string, as a name or a file name or a value.
    fn string(&mut self) -> Result<Name, Refusal> {
        let token = self.token()?;
        match token.kind {
            Kind::Text { size } => Ok(Name { place: token.place + 1, size: size as usize }),
            _ => Err(refusal(7, token.place)),
        }
    }

    fn written(&self, token: Token) -> &'a [u8] {
        &self.tokens.text[token.place..token.end]
    }
}
