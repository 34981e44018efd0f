//! Reading as it is timed: tables and work space are made once, and every call reads into the same ones.

use crate::{Limit, Line, Work};
use grackleivy::{ROWS, STRINGS, TRITS, WORK};

/// An answer as one number: the place of a refusal, or above every place the count of cells and the first run of an accepted text.
fn answer(refused: Option<u64>, rows: &[u32]) -> u64 {
    refused.unwrap_or_else(|| 1 << 40 | u64::from(rows[2]) << 20 | u64::from(rows[ROWS - 3 * 4_096]))
}

pub fn library() -> Work {
    let (mut rows, mut strings, mut trits, mut work) = (vec![0; ROWS], vec![0; STRINGS], vec![0; TRITS], vec![0; WORK]);
    Box::new(move |text| {
        let read = grackleivy::read(text, &mut rows, &mut strings, &mut trits, &mut work);
        answer(read.err().map(|refusal| refusal.place), &rows)
    })
}

/// The plain reader with the library's duty: what it is lent may hold anything, and the work space is zero afterwards.
pub fn reference() -> Work {
    plain(reference::read_into_lent)
}

/// The plain reader with a work space of its own that it knows to be clear.
pub fn reference_kept() -> Work {
    plain(reference::read_into)
}

fn plain(read: fn(&[u8], &mut reference::Tables, &mut reference::Work) -> Result<(), reference::Refusal>) -> Work {
    let (mut tables, mut work) = (reference::Tables::new(), reference::Work::new());
    Box::new(move |text| {
        let read = read(text, &mut tables, &mut work);
        answer(read.err().map(|refusal| refusal.place), &tables.rows)
    })
}

pub fn lines() -> Vec<Line> {
    let line = |name, plain, limit, text| Line { name, library: library(), plain, limit, text };
    vec![
        line("read", reference(), Limit::AtFull(1.5), bench::full_netlist),
        line("read, own work space", reference_kept(), Limit::None, bench::full_netlist),
        line("read, names alike", reference(), Limit::None, bench::alike_netlist),
        line("read, names in pairs", reference(), Limit::None, bench::paired_netlist),
        line("read, pads alike", reference(), Limit::None, bench::pads_netlist),
    ]
}
