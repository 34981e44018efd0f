//! What is asked of tables that hold a netlist: whether they are good, its canonical text, full names, pads.

use crate::{Refusal, Told};

#[repr(C)]
struct Wrote {
    length: u64,
    number: u32,
    place: u64,
}

#[repr(C)]
struct FoundPad {
    row: u64,
    width: u32,
    number: u32,
    place: u64,
}

/// An I/O row: its number in the tables and its width.
#[derive(Clone, Copy, Debug, PartialEq, Eq)]
pub struct Pad {
    pub row: u64,
    pub width: u32,
}

extern "C" {
    fn grackle_check(
        rows: *const u32,
        rows_len: usize,
        strings: *const u8,
        strings_len: usize,
        trits: *const u8,
        trits_len: usize,
    ) -> Told;
    fn grackle_print(
        rows: *const u32,
        rows_len: usize,
        strings: *const u8,
        strings_len: usize,
        trits: *const u8,
        trits_len: usize,
        room: *mut u8,
        room_len: usize,
    ) -> Wrote;
    fn grackle_name(
        rows: *const u32,
        rows_len: usize,
        strings: *const u8,
        strings_len: usize,
        trits: *const u8,
        trits_len: usize,
        row: usize,
        room: *mut u8,
        room_len: usize,
    ) -> Wrote;
    fn grackle_pad(
        rows: *const u32,
        rows_len: usize,
        strings: *const u8,
        strings_len: usize,
        trits: *const u8,
        trits_len: usize,
        name: *const u8,
        name_len: usize,
    ) -> FoundPad;
}

fn length(wrote: Wrote) -> Result<usize, Refusal> {
    match wrote.number {
        0 => Ok(wrote.length as usize),
        number => Err(Refusal { number, place: wrote.place }),
    }
}

/// Whether tables are good: refusal 1 where one is below its fixed length, 15 where they are not the layout of a netlist that keeps
/// every rule. Of a longer table only the fixed length counts, here and below.
pub fn check(rows: &[u32], strings: &[u8], trits: &[u8]) -> Result<(), Refusal> {
    // SAFETY: each pointer and length are those of a slice, which is only read and only during the call.
    let told = unsafe { grackle_check(rows.as_ptr(), rows.len(), strings.as_ptr(), strings.len(), trits.as_ptr(), trits.len()) };
    match told.number {
        0 => Ok(()),
        number => Err(Refusal { number, place: told.place }),
    }
}

/// Prints the canonical text of tables into the room and gives its length: refusal 1, 15, or 24 where the room is shorter than the
/// text. A refusal leaves the room as it was, and what lies past the text is never changed.
pub fn print(rows: &[u32], strings: &[u8], trits: &[u8], room: &mut [u8]) -> Result<usize, Refusal> {
    // SAFETY: each pointer and length are those of a slice, lent for the call alone; the room lies apart, as Rust sees to.
    length(unsafe {
        grackle_print(
            rows.as_ptr(),
            rows.len(),
            strings.as_ptr(),
            strings.len(),
            trits.as_ptr(),
            trits.len(),
            room.as_mut_ptr(),
            room.len(),
        )
    })
}

/// Writes the full name of the ident in this metadata row into the room and gives its length: refusal 1, 15, 16 where the row is no
/// ident, or 24. The room is treated as by `print`.
pub fn name(rows: &[u32], strings: &[u8], trits: &[u8], row: usize, room: &mut [u8]) -> Result<usize, Refusal> {
    // SAFETY: as in `print`.
    length(unsafe {
        grackle_name(
            rows.as_ptr(),
            rows.len(),
            strings.as_ptr(),
            strings.len(),
            trits.as_ptr(),
            trits.len(),
            row,
            room.as_mut_ptr(),
            room.len(),
        )
    })
}

/// The I/O row of this name: refusal 1, 15, or 18 where no row has it.
pub fn pad(rows: &[u32], strings: &[u8], trits: &[u8], name: &[u8]) -> Result<Pad, Refusal> {
    // SAFETY: as in `check`.
    let found = unsafe {
        grackle_pad(
            rows.as_ptr(),
            rows.len(),
            strings.as_ptr(),
            strings.len(),
            trits.as_ptr(),
            trits.len(),
            name.as_ptr(),
            name.len(),
        )
    };
    match found.number {
        0 => Ok(Pad { row: found.row, width: found.width }),
        number => Err(Refusal { number, place: found.place }),
    }
}
