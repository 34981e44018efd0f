//! Document 01's worked list with something changed in it, and each of its fronts, run on 1 and 0.

use crate::hex::{bytes, hex};
use crate::kinds::SUM_LIST;
use reference::cases::Case;

/// The slots of the whole list, worked out by hand; its outputs are the last two.
const SLOTS: &str = "01X1011010010";

pub fn cases() -> Vec<Case> {
    let list = bytes(SUM_LIST.as_bytes()).unwrap_or_default();
    let mut cases = Vec::new();
    for k in 0..list.len() / 8 {
        cases.extend(bits_of_the_mark(&list, k));
        cases.extend(operations(&list, k));
        cases.extend(fields(&list, k));
        cases.extend(moved(&list, k));
    }
    cases.extend((0..list.len()).map(|size| front(&list, size)));
    for (bits, records) in [("", 1), ("", 2), ("", 3), ("1", 4)] {
        cases.push(Case::new(format!("run {bits} |{}", hex(&list[..8 * records])), format!(", slots {}", &SLOTS[..records])));
    }
    for behind in [&b"\x47"[..], b"\x47\x53\x00\x00\x00\x00\x00", b"\x00"] {
        cases.push(Case::new(format!("run 10 |{}", hex(&[&list, behind].concat())), "refused 22 at 104"));
    }
    cases
}

fn changed(list: &[u8], at: usize, byte: u8) -> Vec<u8> {
    let mut list = list.to_vec();
    list[at] = byte;
    list
}

fn bad(list: &[u8], k: usize) -> Case {
    Case::new(format!("run 10 |{}", hex(list)), format!("refused 22 at {}", 8 * k))
}

/// Each bit of the mark and of the byte that is 0.
fn bits_of_the_mark(list: &[u8], k: usize) -> Vec<Case> {
    let place = |byte: usize| (0..8).map(move |bit| (8 * k + byte, bit));
    let flipped = |(at, bit): (usize, u32)| bad(&changed(list, at, list[at] ^ 1 << bit), k);
    [0, 1, 3].into_iter().flat_map(place).map(flipped).collect()
}

/// Every other operation; those above 8 are none.
fn operations(list: &[u8], k: usize) -> Vec<Case> {
    let with = |operation: u8| changed(list, 8 * k + 2, operation);
    let others = (0..9).filter(|&operation| operation != list[8 * k + 2]).map(|operation| open(&with(operation)));
    others.chain([9, 10, 255].map(|operation| bad(&with(operation), k))).collect()
}

/// Each field with values that no field of the list may have there: its own number and more, another high byte; and with earlier slots.
fn fields(list: &[u8], k: usize) -> Vec<Case> {
    let mut cases = Vec::new();
    for at in [8 * k + 4, 8 * k + 6] {
        let old = u16::from_le_bytes([list[at], list[at + 1]]);
        let own = k as u16;
        let with = |value: u16| [&list[..at], &value.to_le_bytes(), &list[at + 2..]].concat();
        let wrong = [own, own + 1, 255, old + 256, 65_535].into_iter().filter(|&value| value != old);
        cases.extend(wrong.map(|value| bad(&with(value), k)));
        let earlier = [0, own.saturating_sub(1)].into_iter().filter(|&value| value != old && value < own);
        cases.extend(earlier.map(|value| open(&with(value))));
    }
    cases.dedup_by(|one, other| one.line == other.line);
    cases
}

/// The record left out, doubled, and changed with the next.
fn moved(list: &[u8], k: usize) -> Vec<Case> {
    let (front, record, rest) = (&list[..8 * k], &list[8 * k..8 * k + 8], &list[8 * k + 8..]);
    let mut lists = vec![[front, record, record, rest].concat()];
    if let Some(next) = rest.get(..8) {
        lists.push([front, rest].concat());
        lists.push([front, next, record, &rest[8..]].concat());
    }
    lists.iter().map(|list| open(list)).collect()
}

/// What the plain runner alone says.
fn open(list: &[u8]) -> Case {
    Case::begins(format!("run 10 |{}", hex(list)), "")
}

/// The list cut off: its last record is a part, or too few inputs are left for the setting.
fn front(list: &[u8], size: usize) -> Case {
    let records = size / 8;
    let answer = match records {
        _ if size % 8 > 0 => format!("refused 22 at {}", 8 * records),
        0..=4 => "refused 23 at 0".into(),
        12 => format!("1, slots {}", &SLOTS[..12]),
        _ => format!(", slots {}", &SLOTS[..records]),
    };
    Case::new(format!("run 10 |{}", hex(&list[..size])), answer)
}
