//! Grackleivy's proved reader, check, printer, evaluator, translator and runner for Rust programs.
//!
//! The functions of `libgrackleivy.a` ask nothing of their caller but a pointer and a length that belong together, which a slice
//! always gives. So the functions here are safe for every slice.

mod logic;
mod read;
mod tables;

pub use logic::{evaluate, run, translate, LOGIC_WORK, RUN_WORK};
pub use read::{read, ROWS, STRINGS, TRITS, WORK};
pub use tables::{check, name, pad, print, Pad};

/// Why a text is refused: the number of document 01 and the place, a byte of the text counted from 0.
#[derive(Clone, Copy, Debug, PartialEq, Eq)]
pub struct Refusal {
    pub number: u32,
    pub place: u64,
}

#[repr(C)]
struct Told {
    number: u32,
    place: u64,
}

#[repr(C)]
struct Counted {
    tokens: u64,
    number: u32,
    place: u64,
}

extern "C" {
    fn grackle_whole(text: *const u8, length: usize) -> Told;
    fn grackle_tokens(text: *const u8, length: usize) -> Counted;
}

/// The text as a whole: refusal 2 (too long), 3 (not UTF-8, or CR without LF) or 4 (empty, or no LF at the end).
pub fn whole(text: &[u8]) -> Result<(), Refusal> {
    // SAFETY: the pointer and the length are those of a slice, which is only read and only during the call.
    let told = unsafe { grackle_whole(text.as_ptr(), text.len()) };
    match told.number {
        0 => Ok(()),
        number => Err(Refusal { number, place: told.place }),
    }
}

/// How many tokens a text has, each line end (LF, CR LF, or a comment with its LF) being one; or the first refusal: 2 to 4 of the
/// whole text, then 5 (malformed token) or 6 (number too large).
///
/// Brackets are not matched here, so a line end counts between them too.
pub fn tokens(text: &[u8]) -> Result<u64, Refusal> {
    // SAFETY: as in `whole`.
    let counted = unsafe { grackle_tokens(text.as_ptr(), text.len()) };
    match counted.number {
        0 => Ok(counted.tokens),
        number => Err(Refusal { number, place: counted.place }),
    }
}
