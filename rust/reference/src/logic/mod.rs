//! The logic side in plain Rust: a netlist's output bits, its load list, and the run of a list.
//!
//! Written from document 01 ("Cells", "Load list", "Refusal numbers") and `docs/LAYOUT.md`, without memory of its own beside the stack.

mod cells;
mod evaluating;
#[cfg(test)]
mod examples;
mod placing;
mod running;
mod translating;
mod trit;

pub use evaluating::evaluate_into;
pub use running::{run_into, RUN_WORK};
pub use translating::translate_into;

use crate::{check, refusal, Refusal};
use cells::Cells;

/// Words of the work space of an evaluation or a translation.
pub const LOGIC_WORK: usize = 8_192;

/// The most records of a load list, and the bytes of each.
const MOST_RECORDS: usize = 8_192;
const RECORD: usize = 8;

/// What a record does; 0, 1 and 2 make the constants.
mod operation {
    pub const INPUT: u8 = 3;
    pub const NOT: u8 = 4;
    pub const AND: u8 = 5;
    pub const OR: u8 = 6;
    pub const XOR: u8 = 7;
    pub const OUTPUT: u8 = 8;
}

/// Asks something of the cells of tables that are checked first: 1, 15, then what is asked. The work space is zero afterwards, but
/// unchanged where 1 is told.
fn of_good_tables(
    rows: &[u32],
    strings: &[u8],
    trits: &[u8],
    work: &mut [u32],
    ask: impl FnOnce(Cells, &mut [u32]) -> Result<usize, Refusal>,
) -> Result<usize, Refusal> {
    let work = work.get_mut(..LOGIC_WORK).ok_or_else(|| refusal(1, 0))?;
    let answer = match check(rows, strings, trits) {
        Err(short) if short.number == 1 => return Err(short),
        Err(bad) => Err(bad),
        Ok(()) => ask(Cells::of_good(rows, trits), work),
    };
    work.fill(0);
    answer
}
