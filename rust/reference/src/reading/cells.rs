//! Cell declarations: the twelve keywords with their operands and widths.

use super::names::Name;
use super::operands::Operand;
use super::tables::*;
use super::Reading;
use crate::{refusal, Kind, Refusal};

/// The keywords, numbered as the layout numbers kinds.
#[derive(Clone, Copy, Debug, PartialEq, Eq)]
pub(crate) enum Keyword {
    Input = 1,
    Output,
    Buf,
    Not,
    And,
    Or,
    Xor,
    Mux,
    Adc,
    Eq,
    Ult,
    Slt,
}

use Keyword::*;

impl Keyword {
    fn of(word: &[u8]) -> Option<Keyword> {
        Some(match word {
            b"input" => Input,
            b"output" => Output,
            b"buf" => Buf,
            b"not" => Not,
            b"and" => And,
            b"or" => Or,
            b"xor" => Xor,
            b"mux" => Mux,
            b"adc" => Adc,
            b"eq" => Eq,
            b"ult" => Ult,
            b"slt" => Slt,
            _ => return None,
        })
    }

    /// The keyword with this number in tables.
    pub(crate) fn numbered(number: u32) -> Option<Keyword> {
        let all = [Input, Output, Buf, Not, And, Or, Xor, Mux, Adc, Eq, Ult, Slt];
        all.get((number as usize).wrapping_sub(1)).copied()
    }

    pub(super) fn has_name(self) -> bool {
        matches!(self, Input | Output)
    }

    pub(super) fn operands(self) -> usize {
        match self {
            Input => 0,
            Output | Buf | Not => 1,
            And | Or | Xor | Eq | Ult | Slt => 2,
            Mux | Adc => 3,
        }
    }

    /// The keyword's rule on the cell's width `w` and those of its operands, each of which is sound by itself.
    pub(super) fn allows(self, w: u64, [a, b, c]: [u64; 3]) -> bool {
        match self {
            Input | Output => true,
            Buf | Not => a == w,
            And | Or | Xor => a == w && b == w,
            Mux => a == 1 && b == w && c == w,
            Adc => a == b && c == 1 && w == a + 1,
            Eq | Ult | Slt => a == b && w == 1,
        }
    }
}

impl Reading<'_> {
    /// `%n:w = ..`, from the `=` on.
    pub(super) fn cell(&mut self, place: usize, index: u32, width: u32) -> Result<(), Refusal> {
        self.delimiter(b'=')?;
        let token = self.token()?;
        let keyword = match token.kind {
            Kind::Word => Keyword::of(self.written(token)).ok_or_else(|| refusal(8, token.place))?,
            _ => return Err(refusal(7, token.place)),
        };
        let name = if keyword.has_name() { self.string()? } else { Name::default() };
        let first_run = self.runs;
        let mut operands = [Operand::default(); 3];
        for operand in &mut operands[..keyword.operands()] {
            *operand = self.operand()?;
            self.runs += operand.runs;
        }
        let mut astray = None;
        let mut meta = 0;
        let token = self.token()?;
        match token.kind {
            Kind::LineEnd => {}
            Kind::Meta(index) => {
                self.line_end()?;
                meta = self.reference(token.place, index, |_| true, &mut astray);
            }
            _ => return Err(refusal(7, token.place)),
        }

        if self.work.cells.row(index).is_some() || self.name_is_taken(keyword, name) {
            return Err(refusal(9, place));
        }
        if let Some(astray) = astray {
            return Err(refusal(10, astray));
        }
        if keyword.has_name() && name.size == 0 {
            return Err(refusal(11, place));
        }
        if !widths_are_good(keyword, width, &operands[..keyword.operands()]) {
            return Err(refusal(12, place));
        }
        let output_bits = if keyword == Output { operands[0].width as usize } else { 0 };
        let fits = self.work.cells.count() < MOST_CELLS
            && self.cell_bits + width as usize <= MOST_CELL_BITS
            && self.output_bits + output_bits <= MOST_OUTPUT_BITS
            && self.runs <= MOST_RUNS
            && self.strings_fit(&[name]);
        if !fits {
            return Err(refusal(13, place));
        }

        self.rows[cell_words(self.work.cells.count())].copy_from_slice(&[
            keyword as u32,
            width,
            name.place as u32,
            name.size as u32,
            meta,
            first_run as u32,
            operands[0].runs as u32,
            operands[1].runs as u32,
            operands[2].runs as u32,
        ]);
        self.cell_bits += width as usize;
        self.output_bits += output_bits;
        self.string_bytes += name.size;
        self.work.cells.declare(index);
        Ok(())
    }

    /// Names are unique among inputs, likewise among outputs. A name that is free is taken here: a refusal ends the reading anyway.
    fn name_is_taken(&mut self, keyword: Keyword, name: Name) -> bool {
        match keyword {
            Input => !self.work.inputs.take(self.tokens.text, name),
            Output => !self.work.outputs.take(self.tokens.text, name),
            _ => false,
        }
    }
}

fn widths_are_good(keyword: Keyword, width: u32, operands: &[Operand]) -> bool {
    let declared = if keyword == Output { width == 0 } else { (1..=256).contains(&width) };
    let mut widths = [0; 3];
    for (width, operand) in widths.iter_mut().zip(operands) {
        *width = operand.width;
    }
    declared && operands.iter().all(Operand::sound) && keyword.allows(u64::from(width), widths)
}
