//! The check of tables and printing as they are timed: the tables of a text are read once, at the first call, and asked of at every call.

use crate::{Limit, Line, Work};
use reference::Tables;

/// As long as the canonical text of the longest netlist timed.
const ROOM: usize = 1 << 17;

/// What is asked of tables, with room for the answer.
type Ask = fn(&Tables, &mut Room) -> u64;

struct Room {
    room: Vec<u8>,
    /// The reference's own buffer, where it may keep one.
    buffer: Vec<u8>,
}

fn asked(ask: Ask) -> Work {
    let mut tables = None;
    let mut room = Room { room: vec![0; ROOM], buffer: Vec::with_capacity(ROOM) };
    Box::new(move |text| {
        let tables = tables.get_or_insert_with(|| reference::read(text).expect("the text is accepted"));
        ask(tables, &mut room)
    })
}

/// An answer as one number: that of a refusal, or above all of these the length and the middle byte of what is written.
fn written(room: &[u8], length: Result<usize, u32>) -> u64 {
    length.map_or_else(u64::from, |length| 1 << 40 | (length as u64) << 8 | u64::from(room[length / 2]))
}

fn good(told: Result<(), u32>) -> u64 {
    told.map_or_else(u64::from, |()| 1 << 40)
}

pub fn library_check() -> Work {
    asked(|t, _| good(grackleivy::check(&t.rows, &t.strings, &t.trits).map_err(|refusal| refusal.number)))
}

pub fn reference_check() -> Work {
    asked(|t, _| good(reference::check(&t.rows, &t.strings, &t.trits).map_err(|refusal| refusal.number)))
}

pub fn library_print() -> Work {
    asked(|t, lent| {
        let length = grackleivy::print(&t.rows, &t.strings, &t.trits, &mut lent.room);
        written(&lent.room, length.map_err(|refusal| refusal.number))
    })
}

/// The plain printer with the library's duty: no memory of its own, so the text is counted before it is written.
pub fn reference_print() -> Work {
    asked(|t, lent| {
        let length = reference::print_into(&t.rows, &t.strings, &t.trits, &mut lent.room);
        written(&lent.room, length.map_err(|refusal| refusal.number))
    })
}

/// The plain printer with a buffer that it keeps, into which the text is written once.
pub fn reference_print_kept() -> Work {
    asked(|t, lent| {
        let length = reference::print_by_buffer(&t.rows, &t.strings, &t.trits, &mut lent.room, &mut lent.buffer);
        written(&lent.room, length.map_err(|refusal| refusal.number))
    })
}

pub fn lines() -> Vec<Line> {
    let line = |name, library, plain, limit, text| Line { name, library, plain, limit, text };
    let limit = Limit::Always(1.5);
    vec![
        line("check", library_check(), reference_check(), limit, bench::full_netlist),
        line("check, names alike", library_check(), reference_check(), limit, bench::alike_netlist),
        line("check, names in pairs", library_check(), reference_check(), limit, bench::paired_netlist),
        line("check, pads alike", library_check(), reference_check(), limit, bench::pads_netlist),
        line("print", library_print(), reference_print(), limit, bench::full_netlist),
        line("print, own buffer", library_print(), reference_print_kept(), Limit::None, bench::full_netlist),
    ]
}
