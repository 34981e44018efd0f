//! The run of a load list: each record makes its slot, and outputs are given in order.

use super::operation::{AND, INPUT, NOT, OR, OUTPUT, XOR};
use super::trit::{and, not, or, xor, X};
use super::{MOST_RECORDS, RECORD};
use crate::{refusal, Refusal};

/// Bytes of the work space of a run, one a slot.
pub const RUN_WORK: usize = MOST_RECORDS;

#[derive(Clone, Copy)]
struct Record {
    marked: bool,
    operation: u8,
    first: usize,
    second: usize,
}

impl Record {
    fn new(bytes: &[u8]) -> Record {
        Record {
            marked: bytes[..2] == [0x47, 0x53] && bytes[3] == 0,
            operation: bytes[2],
            first: usize::from(u16::from_le_bytes([bytes[4], bytes[5]])),
            second: usize::from(u16::from_le_bytes([bytes[6], bytes[7]])),
        }
    }
}

fn records(list: &[u8]) -> impl Iterator<Item = Record> + '_ {
    list.chunks_exact(RECORD).map(Record::new)
}

/// Runs a load list on input bits: 1, 22, 23, 24, or how many output bits there are, which then stand in `outs`, and the slots in
/// `work`. The work space is zero past the slots, and zero after every refusal but 1, which changes nothing.
pub fn run_into(list: &[u8], ins: &[u8], outs: &mut [u8], work: &mut [u8]) -> Result<usize, Refusal> {
    let work = work.get_mut(..RUN_WORK).ok_or_else(|| refusal(1, 0))?;
    let ran = run(list, ins, outs, work);
    if ran.is_err() {
        work.fill(0);
    }
    ran
}

fn run(list: &[u8], ins: &[u8], outs: &mut [u8], work: &mut [u8]) -> Result<usize, Refusal> {
    let (inputs, outputs) = counts(list)?;
    if ins.len() != inputs || ins.iter().any(|&bit| bit > X) {
        return Err(refusal(23, 0));
    }
    let outs = outs.get_mut(..outputs).ok_or_else(|| refusal(24, 0))?;
    let mut count = 0;
    for record in records(list) {
        let (slots, rest) = work.split_at_mut(count);
        let at = |slot: usize| slots[slot];
        rest[0] = match record.operation {
            INPUT => ins[record.first],
            NOT => not(at(record.first)),
            AND => and(at(record.first), at(record.second)),
            OR => or(at(record.first), at(record.second)),
            XOR => xor(at(record.first), at(record.second)),
            OUTPUT => {
                outs[record.second] = at(record.first);
                at(record.first)
            }
            constant => constant,
        };
        count += 1;
    }
    work[count..].fill(0);
    Ok(outputs)
}

/// How many inputs and outputs a good list has; 22 at the first bad record.
fn counts(list: &[u8]) -> Result<(usize, usize), Refusal> {
    let (mut inputs, mut outputs) = (0, 0);
    for (slot, record) in records(list).take(MOST_RECORDS).enumerate() {
        let Record { first, second, .. } = record;
        let good = match record.operation {
            0..=2 => first == 0 && second == 0,
            INPUT => first == inputs && second == 0,
            NOT => first < slot && second == 0,
            AND | OR | XOR => first < slot && second < slot,
            OUTPUT => first < slot && second == outputs,
            _ => false,
        };
        if !(record.marked && good) {
            return Err(refusal(22, RECORD * slot));
        }
        inputs += usize::from(record.operation == INPUT);
        outputs += usize::from(record.operation == OUTPUT);
    }
    let whole = list.len() / RECORD;
    if whole > MOST_RECORDS || list.len() % RECORD > 0 {
        return Err(refusal(22, RECORD * whole.min(MOST_RECORDS)));
    }
    Ok((inputs, outputs))
}
