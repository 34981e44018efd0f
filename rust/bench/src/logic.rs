//! Evaluation, translation and the run of a list as they are timed: the tables of a text are read once, at the first call, and so is its
//! list made; rooms and work spaces are made once, and every call uses the same ones.

use crate::{Limit, Line, Work};
use bench::Random;
use reference::logic::{LOGIC_WORK, RUN_WORK};
use reference::Tables;

/// The longest list, in bytes.
const LIST: usize = 65_536;

/// What is asked of a netlist.
type Ask = fn(&Netlist, &mut Rooms) -> u64;

struct Netlist {
    tables: Tables,
    list: Vec<u8>,
    ins: Vec<u8>,
}

struct Rooms {
    list: Vec<u8>,
    outs: Vec<u8>,
    words: Vec<u32>,
    bytes: Vec<u8>,
}

impl Netlist {
    fn new(text: &[u8]) -> Netlist {
        let tables = reference::read(text).expect("the text is accepted");
        let mut list = vec![0; LIST];
        let records =
            reference::translate_into(&tables.rows, &tables.strings, &tables.trits, &mut list, &mut vec![0; LOGIC_WORK]);
        list.truncate(8 * records.expect("the netlist has a list"));
        let inputs = list.chunks(8).filter(|record| record[2] == 3).count();
        let mut random = Random::new(1);
        let ins = (0..inputs).map(|_| random.pick(&[0, 0, 0, 0, 1, 1, 1, 1, 2])).collect();
        Netlist { tables, list, ins }
    }
}

fn asked(ask: Ask) -> Work {
    let mut netlist = None;
    let mut rooms = Rooms { list: vec![0; LIST], outs: vec![0; 4_096], words: vec![0; LOGIC_WORK], bytes: vec![0; RUN_WORK] };
    Box::new(move |text| ask(netlist.get_or_insert_with(|| Netlist::new(text)), &mut rooms))
}

/// An answer as one number: that of a refusal, or above all of these the count and the sum of some bytes of what is given.
fn given(room: &[u8], bytes: Result<usize, u32>) -> u64 {
    let some = |length: usize| room[..length].iter().step_by(13).map(|&byte| u64::from(byte)).sum::<u64>();
    bytes.map_or_else(u64::from, |length| 1 << 40 | (length as u64) << 20 | some(length))
}

pub fn library_evaluate() -> Work {
    asked(|n, rooms| {
        let t = &n.tables;
        let told = grackleivy::evaluate(&t.rows, &t.strings, &t.trits, &n.ins, &mut rooms.outs, &mut rooms.words);
        given(&rooms.outs, told.map_err(|refusal| refusal.number))
    })
}

pub fn reference_evaluate() -> Work {
    asked(|n, rooms| {
        let t = &n.tables;
        let told = reference::evaluate_into(&t.rows, &t.strings, &t.trits, &n.ins, &mut rooms.outs, &mut rooms.words);
        given(&rooms.outs, told.map_err(|refusal| refusal.number))
    })
}

pub fn library_translate() -> Work {
    asked(|n, rooms| {
        let t = &n.tables;
        let told = grackleivy::translate(&t.rows, &t.strings, &t.trits, &mut rooms.list, &mut rooms.words);
        given(&rooms.list, told.map(|records| 8 * records).map_err(|refusal| refusal.number))
    })
}

pub fn reference_translate() -> Work {
    asked(|n, rooms| {
        let t = &n.tables;
        let told = reference::translate_into(&t.rows, &t.strings, &t.trits, &mut rooms.list, &mut rooms.words);
        given(&rooms.list, told.map(|records| 8 * records).map_err(|refusal| refusal.number))
    })
}

pub fn library_run() -> Work {
    asked(|n, rooms| {
        let told = grackleivy::run(&n.list, &n.ins, &mut rooms.outs, &mut rooms.bytes);
        given(&rooms.outs, told.map_err(|refusal| refusal.number))
    })
}

pub fn reference_run() -> Work {
    asked(|n, rooms| {
        let told = reference::run_into(&n.list, &n.ins, &mut rooms.outs, &mut rooms.bytes);
        given(&rooms.outs, told.map_err(|refusal| refusal.number))
    })
}

pub fn lines() -> Vec<Line> {
    let line = |name, library, plain, limit, text| Line { name, library, plain, limit, text };
    let (wired, turned) = (bench::wired_netlist, bench::turned_netlist);
    vec![
        line("evaluate", library_evaluate(), reference_evaluate(), Limit::Always(2.0), wired),
        line("evaluate, turned", library_evaluate(), reference_evaluate(), Limit::None, turned),
        line("translate", library_translate(), reference_translate(), Limit::Always(1.5), wired),
        line("translate, turned", library_translate(), reference_translate(), Limit::None, turned),
        line("run", library_run(), reference_run(), Limit::Always(1.2), wired),
    ]
}
