//! Reading a text into lent tables.

use crate::{Refusal, Told};

/// Words of the rows table; `docs/LAYOUT.md` tells what lies where.
pub const ROWS: usize = 26_307;
/// Bytes of the strings table.
pub const STRINGS: usize = 16_384;
/// Bytes of the trits table.
pub const TRITS: usize = 393_728;
/// Words of the reader's work space.
pub const WORK: usize = 132_608;

extern "C" {
    fn grackle_read(
        text: *const u8,
        text_len: usize,
        rows: *mut u32,
        rows_len: usize,
        strings: *mut u8,
        strings_len: usize,
        trits: *mut u8,
        trits_len: usize,
        work: *mut u32,
        work_len: usize,
    ) -> Told;
}

/// Reads a text into the three tables: refusal 1 to 14, or the layout of the netlist that the text says.
///
/// A table or work space below its fixed length is refused 1, and nothing is changed. Of a longer one only the fixed length counts.
/// Any other refusal leaves the tables zero, and the work space is zero after it and after success.
pub fn read(text: &[u8], rows: &mut [u32], strings: &mut [u8], trits: &mut [u8], work: &mut [u32]) -> Result<(), Refusal> {
    // SAFETY: each pointer and length are those of a slice, lent for the call alone; the mutable ones lie apart, as Rust sees to.
    let told = unsafe {
        grackle_read(
            text.as_ptr(),
            text.len(),
            rows.as_mut_ptr(),
            rows.len(),
            strings.as_mut_ptr(),
            strings.len(),
            trits.as_mut_ptr(),
            trits.len(),
            work.as_mut_ptr(),
            work.len(),
        )
    };
    match told.number {
        0 => Ok(()),
        number => Err(Refusal { number, place: told.place }),
    }
}
