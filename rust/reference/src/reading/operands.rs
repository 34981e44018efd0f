//! Operands: their exact widths, their longest runs, and the pieces that have to resolve.

use super::tables::*;
use super::Reading;
use crate::{refusal, Kind, Refusal, Token};

/// The widest operand.
const WIDEST: u64 = 256;

/// What an operand comes to: its width, and its runs, the last of which may still grow.
#[derive(Clone, Copy, Debug, Default)]
pub(super) struct Operand {
    pub width: u64,
    pub runs: usize,
    last: Run,
}

/// A run as its row has it while the text is read: `what` is 0 for constant bits, else the author's cell number plus one.
#[derive(Clone, Copy, Debug, Default)]
struct Run {
    what: u32,
    at: u32,
    width: u32,
}

/// A piece whose cell is not declared yet: it resolves if that cell comes and `reach` (offset plus width) is within its width.
#[derive(Clone, Copy, Debug)]
pub(super) struct Waiting {
    pub place: usize,
    pub index: u32,
    pub reach: u32,
}

impl Reading<'_> {
    /// An operand: one part, or parts in `[ ]`.
    pub(super) fn operand(&mut self) -> Result<Operand, Refusal> {
        let mut operand = Operand::default();
        match self.tokens.next_token()? {
            Some(Token { kind: Kind::Delimiter(b'['), .. }) => self.parts(&mut operand)?,
            Some(token) => self.part(&token, &mut operand)?,
            None => return Err(self.early_end()),
        }
        Ok(operand)
    }

    /// Parts up to the closing bracket; a line end between them is white space.
    fn parts(&mut self, operand: &mut Operand) -> Result<(), Refusal> {
        loop {
            match self.tokens.next_token()? {
                Some(Token { kind: Kind::LineEnd, .. }) => {}
                Some(Token { kind: Kind::Delimiter(b']'), .. }) => return Ok(()),
                Some(token) => self.part(&token, operand)?,
                None => return Err(self.early_end()),
            }
        }
    }

    #[inline]
    fn part(&mut self, token: &Token, operand: &mut Operand) -> Result<(), Refusal> {
        match token.kind {
            Kind::Constant { trits, times } => {
                let times = times.unwrap_or(1);
                if operand.widen(trits, times) {
                    self.lay_constant(token.place, trits, times, operand);
                }
                Ok(())
            }
            Kind::Cell { index, offset, width, times } => {
                let (offset, width, times) = (offset.unwrap_or(0), width.unwrap_or(1), times.unwrap_or(1));
                self.resolve(Waiting { place: token.place, index, reach: offset + width });
                if operand.widen(width, times) {
                    self.lay_piece(Run { what: index + 1, at: offset, width }, times, operand);
                }
                Ok(())
            }
            Kind::Placeholder { .. } => Err(refusal(8, token.place)),
            _ => Err(refusal(7, token.place)),
        }
    }

    /// A piece of a cell declared before either resolves or is lost for good; any other waits for the end of the text.
    fn resolve(&mut self, piece: Waiting) {
        match self.work.cells.row(piece.index) {
            None => self.work.waiting.push(piece),
            Some(row) => {
                if piece.reach > self.rows[cell_words(row)][1] && self.lost.is_none() {
                    self.lost = Some(piece.place);
                }
            }
        }
    }

    fn lay_constant(&mut self, place: usize, trits: u32, times: u32, operand: &mut Operand) {
        let width = trits * times;
        if operand.runs == 0 || operand.last.what != 0 {
            operand.last = Run { what: 0, at: self.run_trits as u32, width: 0 };
            operand.runs += 1;
        }
        operand.last.width += width;
        self.write_run(operand);
        // a cell that brings more trits than there is room for is refused when it ends
        let from = RUN_TRITS_AT + self.run_trits;
        if let Some(room) = self.trits.get_mut(from..from + width as usize) {
            let constant = &self.tokens.text[place..place + trits as usize];
            for copy in room.chunks_exact_mut(constant.len()) {
                write_trits(constant, copy);
            }
        }
        self.run_trits += width as usize;
    }

    fn lay_piece(&mut self, piece: Run, times: u32, operand: &mut Operand) {
        for _ in 0..times {
            let last = operand.last;
            operand.last = if last.what == piece.what && piece.at + piece.width == last.at {
                Run { width: last.width + piece.width, ..piece }
            } else {
                operand.runs += 1;
                piece
            };
            self.write_run(operand);
        }
    }

    /// Writes the operand's last run, which may have grown. A run past Room's limit has no place, and its cell is refused.
    fn write_run(&mut self, operand: &Operand) {
        if let Some(row) = self.rows.get_mut(run_words(self.runs + operand.runs - 1)) {
            row.copy_from_slice(&[operand.last.what, operand.last.at, operand.last.width]);
        }
    }
}

impl Operand {
    pub fn sound(&self) -> bool {
        (1..=WIDEST).contains(&self.width)
    }

    /// Adds a part; true if it has bits to lay. Those of an operand too wide need not be laid, for its cell is refused.
    fn widen(&mut self, width: u32, times: u32) -> bool {
        let more = u64::from(width) * u64::from(times);
        self.width += more;
        more > 0 && self.width <= WIDEST
    }
}

/// The trits of a constant as bytes: 0, 1, and 2 for X.
pub(super) fn write_trits(constant: &[u8], to: &mut [u8]) {
    for (to, byte) in to.iter_mut().zip(constant) {
        *to = match byte {
            b'0' => 0,
            b'1' => 1,
            _ => 2,
        };
    }
}
