//! The logic of a netlist: its output bits, its load list, and the run of a list.

use crate::Refusal;

/// Words of the work space of an evaluation or a translation.
pub const LOGIC_WORK: usize = 8_192;
/// Bytes of the work space of a run, one a slot.
pub const RUN_WORK: usize = 8_192;

#[repr(C)]
struct Gave {
    count: u64,
    number: u32,
    place: u64,
}

extern "C" {
    fn grackle_evaluate(
        rows: *const u32,
        rows_len: usize,
        strings: *const u8,
        strings_len: usize,
        trits: *const u8,
        trits_len: usize,
        ins: *const u8,
        ins_len: usize,
        outs: *mut u8,
        outs_len: usize,
        work: *mut u32,
        work_len: usize,
    ) -> Gave;
    fn grackle_translate(
        rows: *const u32,
        rows_len: usize,
        strings: *const u8,
        strings_len: usize,
        trits: *const u8,
        trits_len: usize,
        list: *mut u8,
        list_len: usize,
        work: *mut u32,
        work_len: usize,
    ) -> Gave;
    fn grackle_run(
        list: *const u8,
        list_len: usize,
        ins: *const u8,
        ins_len: usize,
        outs: *mut u8,
        outs_len: usize,
        work: *mut u8,
        work_len: usize,
    ) -> Gave;
}

fn count(gave: Gave) -> Result<usize, Refusal> {
    match gave.number {
        0 => Ok(gave.count as usize),
        number => Err(Refusal { number, place: gave.place }),
    }
}

/// Works out the output bits of the netlist in three tables, for a byte (0, 1, and 2 for X) for each input bit, and gives how many there
/// are: refusal 1, 15, 20 where cells form a ring, 23 where the input bits are not as many or a byte is above 2, or 24 where `outs` is
/// shorter than the answer.
///
/// A refusal leaves `outs` as it was, and what lies past the answer is never changed. The work space is zero afterwards, but unchanged
/// where 1 is told; of a longer table or work space only the fixed length counts.
pub fn evaluate(
    rows: &[u32],
    strings: &[u8],
    trits: &[u8],
    ins: &[u8],
    outs: &mut [u8],
    work: &mut [u32],
) -> Result<usize, Refusal> {
    // SAFETY: each pointer and length are those of a slice, lent for the call alone; the mutable ones lie apart, as Rust sees to.
    count(unsafe {
        grackle_evaluate(
            rows.as_ptr(),
            rows.len(),
            strings.as_ptr(),
            strings.len(),
            trits.as_ptr(),
            trits.len(),
            ins.as_ptr(),
            ins.len(),
            outs.as_mut_ptr(),
            outs.len(),
            work.as_mut_ptr(),
            work.len(),
        )
    })
}

/// Writes the load list of the netlist in three tables and gives how many records of 8 bytes it has: refusal 1, 15, 20, 21 where there
/// are more than 8,192 records, or 24. List and work space are treated as by `evaluate`.
pub fn translate(rows: &[u32], strings: &[u8], trits: &[u8], list: &mut [u8], work: &mut [u32]) -> Result<usize, Refusal> {
    // SAFETY: as in `evaluate`.
    count(unsafe {
        grackle_translate(
            rows.as_ptr(),
            rows.len(),
            strings.as_ptr(),
            strings.len(),
            trits.as_ptr(),
            trits.len(),
            list.as_mut_ptr(),
            list.len(),
            work.as_mut_ptr(),
            work.len(),
        )
    })
}

/// Runs a load list on input bits and gives how many output bits there are: refusal 1, 22 at the first bad record, 23 or 24. After a run
/// that succeeds the work space holds the slots, a byte each, then zeros; else it is treated as by `evaluate`.
pub fn run(list: &[u8], ins: &[u8], outs: &mut [u8], work: &mut [u8]) -> Result<usize, Refusal> {
    // SAFETY: as in `evaluate`.
    count(unsafe {
        grackle_run(
            list.as_ptr(),
            list.len(),
            ins.as_ptr(),
            ins.len(),
            outs.as_mut_ptr(),
            outs.len(),
            work.as_mut_ptr(),
            work.len(),
        )
    })
}
