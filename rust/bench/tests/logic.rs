//! The proved evaluator, translator and runner give the same answers as the plain ones, and leave the same bytes in every room and work
//! space: on worked netlists, random ones, near every limit, with tables, settings, lists and rooms that are not as they should be.
//!
//! The random ones come from one seed, which is printed. `GRACKLEIVY_SEED=<number>` tries another one.

#![forbid(unsafe_code)]

use bench::{any_netlist, any_wired, full_netlist, turned_netlist, wired_netlist, Random};
use grackleivy::{LOGIC_WORK, ROWS, RUN_WORK, STRINGS, TRITS};
use reference::cases::kept;
use reference::{lines, read, Refusal, Tables};

const MARK: u8 = 0xa5;
/// The longest list, in bytes.
const LIST: usize = 65_536;
const RECORD: usize = 8;

fn told<T>(answer: Result<T, grackleivy::Refusal>) -> Result<T, Refusal> {
    answer.map_err(|refusal| Refusal { number: refusal.number, place: refusal.place })
}

/// Compares the two on one call after the other, and counts the answers by number.
struct Compared {
    name: &'static str,
    calls: u64,
    answers: [u64; 25],
}

impl Compared {
    fn new(name: &'static str) -> Compared {
        Compared { name, calls: 0, answers: [0; 25] }
    }

    fn count(&mut self, answer: &Result<usize, Refusal>) {
        self.calls += 1;
        self.answers[answer.as_ref().map_or_else(|refusal| refusal.number as usize, |_| 0)] += 1;
    }

    /// An evaluation in a room of this size, and in a work space that is longer by some words and full of something.
    fn evaluate(&mut self, t: &Tables, ins: &[u8], room: usize, more: isize) -> Result<Vec<u8>, Refusal> {
        let (mut outs, mut work) = (vec![MARK; room], words(LOGIC_WORK, more));
        let (mut others, mut other_work) = (outs.clone(), work.clone());
        let answer = told(grackleivy::evaluate(&t.rows, &t.strings, &t.trits, ins, &mut outs, &mut work));
        let plain = reference::evaluate_into(&t.rows, &t.strings, &t.trits, ins, &mut others, &mut other_work);
        assert_eq!(answer, plain, "evaluations differ, {}, room {room}: {}", self.name, shown(t, ins));
        assert!(outs == others && work == other_work, "bytes differ, {}, room {room}: {}", self.name, shown(t, ins));
        let given = *answer.as_ref().unwrap_or(&0);
        assert!(outs[given..].iter().all(|&byte| byte == MARK), "bytes past the answer, {}: {}", self.name, shown(t, ins));
        self.count(&answer);
        answer.map(|given| outs[..given].to_vec())
    }

    fn translate(&mut self, t: &Tables, room: usize, more: isize) -> Result<Vec<u8>, Refusal> {
        let (mut list, mut work) = (vec![MARK; room], words(LOGIC_WORK, more));
        let (mut other, mut other_work) = (list.clone(), work.clone());
        let answer = told(grackleivy::translate(&t.rows, &t.strings, &t.trits, &mut list, &mut work));
        let plain = reference::translate_into(&t.rows, &t.strings, &t.trits, &mut other, &mut other_work);
        assert_eq!(answer, plain, "translations differ, {}, room {room}: {}", self.name, shown(t, &[]));
        assert!(list == other && work == other_work, "bytes differ, {}, room {room}: {}", self.name, shown(t, &[]));
        let given = RECORD * *answer.as_ref().unwrap_or(&0);
        assert!(list[given..].iter().all(|&byte| byte == MARK), "bytes past the list, {}: {}", self.name, shown(t, &[]));
        self.count(&answer);
        answer.map(|_| list[..given].to_vec())
    }

    fn run(&mut self, list: &[u8], ins: &[u8], room: usize, more: isize) -> Result<Vec<u8>, Refusal> {
        let mut outs = vec![MARK; room];
        let mut work = vec![MARK; (RUN_WORK as isize + more) as usize];
        let (mut others, mut other_work) = (outs.clone(), work.clone());
        let answer = told(grackleivy::run(list, ins, &mut outs, &mut work));
        let plain = reference::run_into(list, ins, &mut others, &mut other_work);
        assert_eq!(answer, plain, "runs differ, {}, room {room}: list {list:x?}, bits {ins:?}", self.name);
        assert!(outs == others && work == other_work, "bytes differ, {}, room {room}: list {list:x?}, bits {ins:?}", self.name);
        let given = *answer.as_ref().unwrap_or(&0);
        assert!(outs[given..].iter().all(|&byte| byte == MARK), "bytes past the answer, {}: list {list:x?}", self.name);
        self.count(&answer);
        answer.map(|given| outs[..given].to_vec())
    }

    /// Everything that can be asked of good tables.
    fn all(&mut self, t: &Tables, random: &mut Random) {
        let list = self.lists(t, random);
        let inputs = input_bits(t);
        for setting in 0..3 {
            let ins = bits(inputs, setting, random);
            let answer = self.evaluate(t, &ins, 4_096, 5);
            assert_eq!(answer, reference::reading::evaluate(t, &ins), "the evaluator that asks differs: {}", shown(t, &ins));
            self.wrong_settings(t, &list, &ins, random);
            if let Ok(outs) = &answer {
                self.rooms(t, &list, &ins, outs.len());
            }
            if let (Ok(list), Ok(outs)) = (&list, &answer) {
                assert_eq!(self.run(list, &ins, 4_096, 3).as_ref(), Ok(outs), "{}", shown(t, &ins));
                self.damaged_lists(list, &ins, random);
            }
        }
    }

    fn lists(&mut self, t: &Tables, random: &mut Random) -> Result<Vec<u8>, Refusal> {
        let list = self.translate(t, LIST, 5);
        if let Ok(list) = &list {
            assert_eq!(self.translate(t, list.len(), 0).as_ref(), Ok(list));
            let short = random.pick(&[1, 7, 8, list.len()]);
            assert_eq!(self.translate(t, list.len() - short, 0), Err(Refusal { number: 24, place: 0 }));
        }
        list
    }

    fn wrong_settings(&mut self, t: &Tables, list: &Result<Vec<u8>, Refusal>, ins: &[u8], random: &mut Random) {
        let mut wrong = ins.to_vec();
        match random.below(3) {
            0 => wrong.push(0),
            1 => drop(wrong.pop()),
            _ if ins.is_empty() => wrong.push(3),
            _ => {
                let at = random.below(ins.len());
                wrong[at] = random.pick(&[3, 4, 128, 255]);
            }
        }
        for room in [4_096, 0] {
            self.evaluate(t, &wrong, room, 0).ok();
            if let Ok(list) = list {
                self.run(list, &wrong, room, 0).ok();
            }
        }
    }

    /// A room just long enough, and one that is shorter by a byte.
    fn rooms(&mut self, t: &Tables, list: &Result<Vec<u8>, Refusal>, ins: &[u8], outs: usize) {
        for room in [outs, outs.saturating_sub(1)] {
            self.evaluate(t, ins, room, 0).ok();
            if let Ok(list) = list {
                self.run(list, ins, room, 0).ok();
            }
        }
    }

    fn damaged_lists(&mut self, list: &[u8], ins: &[u8], random: &mut Random) {
        for _ in 0..4 {
            let list = damaged(list, random);
            self.run(&list, ins, 4_096, 0).ok();
            let inputs = list.chunks_exact(RECORD).filter(|record| record[2] == 3).count();
            let ins = bits(inputs, 0, random);
            self.run(&list, &ins, 4_096, 1).ok();
        }
    }

    fn finish(self, least: u64) {
        let told: Vec<String> = (1..25).filter(|&n| self.answers[n] > 0).map(|n| format!("{n}: {}", self.answers[n])).collect();
        println!("{}: {} calls, {} answered, refused {}; no difference", self.name, self.calls, self.answers[0], told.join(", "));
        assert!(self.calls >= least, "{}: {} calls are fewer than {least}", self.name, self.calls);
    }
}

/// A work space of this length and some more, full of something.
fn words(length: usize, more: isize) -> Vec<u32> {
    (0..(length as isize + more) as u32).map(|word| word.wrapping_mul(0x9e37_79b9) | 1).collect()
}

fn input_bits(t: &Tables) -> usize {
    let cells = t.rows[9_411..].chunks(9).take(t.rows[2] as usize);
    cells.filter(|words| words[0] == 1).map(|words| words[1] as usize).sum()
}

/// Bits of a setting: mixed, all known, or mostly X.
fn bits(count: usize, setting: usize, random: &mut Random) -> Vec<u8> {
    let of: &[u8] = [&[0, 0, 0, 1, 1, 1, 2][..], &[0, 1], &[0, 1, 2, 2, 2, 2]][setting];
    (0..count).map(|_| random.pick(of)).collect()
}

/// A list with something changed that keeps most of it.
fn damaged(list: &[u8], random: &mut Random) -> Vec<u8> {
    let mut list = list.to_vec();
    let records = list.len() / RECORD;
    let (at, other) = (RECORD * random.below(records), RECORD * random.below(records));
    match random.below(10) {
        0 => list[at + random.below(RECORD)] ^= 1 << random.below(8),
        1 => list[at + 2] = random.below(11) as u8,
        2 => list[at + 4 + 2 * random.below(2)] = random.below(256) as u8,
        3 => list.truncate(at + random.below(RECORD)),
        4 => drop(list.drain(at..at + RECORD)),
        5 => list.copy_within(at..at + RECORD, other),
        6 => list.extend_from_within(at..at + RECORD),
        7 => list.push(0x47),
        // a record that names its own slot, or the one before
        8 => {
            let slot = (at / RECORD).wrapping_sub(random.below(2)) as u16;
            list[at..at + RECORD].copy_from_slice(&record(random.pick(&[4, 5, 6, 7, 8]), slot, 0));
        }
        _ => {
            let swapped = list[at..at + RECORD].to_vec();
            list.copy_within(other..other + RECORD, at);
            list[other..other + RECORD].copy_from_slice(&swapped);
        }
    }
    list
}

fn record(operation: u8, first: u16, second: u16) -> [u8; RECORD] {
    let ([f, g], [s, t]) = (first.to_le_bytes(), second.to_le_bytes());
    [0x47, 0x53, operation, 0, f, g, s, t]
}

/// A good list of so many records that is no translation: every operation in any order.
fn any_list(count: usize, random: &mut Random) -> Vec<u8> {
    let (mut list, mut inputs, mut outputs) = (Vec::new(), 0, 0);
    for slot in 0..count {
        let earlier = |random: &mut Random| random.below(slot) as u16;
        list.extend(match random.below(if slot == 0 { 4 } else { 9 }) {
            3 => {
                inputs += 1;
                record(3, inputs - 1, 0)
            }
            4 => record(4, earlier(random), 0),
            8 => {
                outputs += 1;
                record(8, earlier(random), outputs - 1)
            }
            gate @ 5..=7 => record(gate as u8, earlier(random), earlier(random)),
            constant => record(constant as u8, 0, 0),
        });
    }
    list
}

fn shown(t: &Tables, ins: &[u8]) -> String {
    let good = reference::check(&t.rows, &t.strings, &t.trits).is_ok();
    let text = if good { reference::reading::canonical(t) } else { "tables that are not good".into() };
    format!("bits {ins:?}, {}", text.chars().take(3_000).collect::<String>())
}

fn seeded(name: &str) -> Random {
    let seed = std::env::var("GRACKLEIVY_SEED").ok().and_then(|word| word.parse().ok()).unwrap_or(20_261_115);
    println!("{name}: seed {seed}");
    Random::new(seed)
}

#[test]
fn worked_netlists() {
    let mut random = seeded("worked netlists");
    let mut compared = Compared::new("worked netlists");
    for line in kept("stdin", "evaluations").lines() {
        let (bits, text) = line.split_once(" |").expect("bits and a text");
        let ins: Vec<u8> = bits.chars().map(|letter| "01X3".find(letter).expect("a bit") as u8).collect();
        if let Ok(tables) = read(&lines::text(text.as_bytes()).expect("a text")) {
            let answer = compared.evaluate(&tables, &ins, 4_096, 5);
            assert_eq!(answer, reference::reading::evaluate(&tables, &ins), "{line}");
            compared.all(&tables, &mut random);
        }
    }
    for line in kept("stdin", "readings").lines() {
        if let Ok(tables) = read(&lines::text(line.as_bytes()).expect("a text")) {
            compared.all(&tables, &mut random);
        }
    }
    compared.finish(10_000);
}

#[test]
fn random_netlists() {
    let mut random = seeded("random netlists");
    let mut compared = Compared::new("random netlists");
    for _ in 0..300 {
        compared.all(&read(&any_netlist(&mut random)).expect("accepted"), &mut random);
        compared.all(&read(&any_wired(&mut random)).expect("accepted"), &mut random);
    }
    compared.finish(15_000);
}

#[test]
fn netlists_near_the_limits() {
    let mut random = seeded("netlists near the limits");
    let mut compared = Compared::new("netlists near the limits");
    for kib in [4, 16, 64] {
        for make in [wired_netlist, turned_netlist, full_netlist] {
            for seed in 0..4 {
                compared.all(&read(&make(kib << 10, seed)).expect("accepted"), &mut random);
            }
        }
    }
    // document 01: 8,192 records, and one more
    for given in [252, 253, 254] {
        let cells: String = (0..15).map(|n| format!("%{}:1 = eq %0:256 %0:256\n", 300 + n)).collect();
        let text = format!("%0:256 = input \"a\"\n{cells}%400:0 = output \"y\" %0:{given}\n");
        compared.all(&read(text.as_bytes()).expect("accepted"), &mut random);
    }
    // 4,096 output bits of one input bit; 511 cells each of the next one, and a ring of 512
    let outputs: String = (0..16).map(|n| format!("%{}:0 = output \"{n}\" %0*256\n", n + 1)).collect();
    compared.all(&read(format!("%0:1 = input \"a\"\n{outputs}").as_bytes()).expect("accepted"), &mut random);
    let chain: String = (0..511).map(|n| format!("%{n}:8 = not %{}:8\n", n + 1)).collect();
    for last in ["input \"a\"", "buf %0:8", "buf %511:8"] {
        compared.all(&read(format!("{chain}%511:8 = {last}\n").as_bytes()).expect("accepted"), &mut random);
    }
    compared.finish(1_500);
}

#[test]
fn tables_with_a_place_changed() {
    let mut random = seeded("tables with a place changed");
    let mut compared = Compared::new("tables with a place changed");
    for _ in 0..100 {
        let mut tables = read(&any_wired(&mut random)).expect("accepted");
        for _ in 0..20 {
            let at = match random.below(4) {
                0 => random.below(ROWS),
                1 => 9_411 + random.below(9 * tables.rows[2] as usize),
                _ => 14_019 + random.below(3 * 20),
            };
            let old = tables.rows[at];
            tables.rows[at] = random.pick(&[old.wrapping_add(1), old.wrapping_sub(1), 0, 1, 3, u32::MAX]);
            let ins = bits(input_bits(&tables).min(4_096), 0, &mut random);
            compared.evaluate(&tables, &ins, 4_096, 5).ok();
            compared.translate(&tables, LIST, 5).ok();
            tables.rows[at] = old;
        }
    }
    compared.finish(4_000);
}

#[test]
fn any_lists() {
    let mut random = seeded("any lists");
    let mut compared = Compared::new("any lists");
    for turn in 0..1_500 {
        let count = 1 + random.below(if turn % 50 == 0 { 8_192 } else { 60 });
        let list = any_list(count, &mut random);
        let inputs = list.chunks(RECORD).filter(|record| record[2] == 3).count();
        let ins = bits(inputs, turn % 3, &mut random);
        compared.run(&list, &ins, 4_096.max(count), 0).expect("a good list runs");
        compared.damaged_lists(&list, &ins, &mut random);
    }
    for more in 0..3 {
        let list = record(0, 0, 0).repeat(8_190 + more).into_iter().chain(vec![0x47; random.below(8)]).collect::<Vec<u8>>();
        compared.run(&list, &[], 0, 0).ok();
    }
    for size in 0..40 {
        let list: Vec<u8> = (0..size).map(|_| random.below(256) as u8).collect();
        compared.run(&list, &[], 0, 0).ok();
    }
    compared.finish(13_000);
}

#[test]
fn short_work_spaces_and_tables_are_refused_and_longer_ones_are_cut() {
    let mut compared = Compared::new("lengths");
    let tables = read(b"%0:1 = input \"a\"\n%1:0 = output \"y\" %0\n").expect("accepted");
    let first = Refusal { number: 1, place: 0 };
    for more in [-1, -(LOGIC_WORK as isize)] {
        assert_eq!(compared.evaluate(&tables, &[1], 9, more), Err(first));
        assert_eq!(compared.translate(&tables, 99, more), Err(first));
        assert_eq!(compared.run(&[0; 3], &[1], 9, more), Err(first));
    }
    for (row, string, trit) in [(1, 0, 0), (0, 1, 0), (0, 0, 1), (ROWS, STRINGS, TRITS)] {
        let (rows, strings, trits) = (&tables.rows[row..], &tables.strings[string..], &tables.trits[trit..]);
        let (mut room, mut work) = ([MARK; 9], words(LOGIC_WORK, 0));
        assert_eq!(told(grackleivy::evaluate(rows, strings, trits, &[1], &mut room, &mut work)), Err(first));
        assert_eq!(told(grackleivy::translate(rows, strings, trits, &mut room, &mut work)), Err(first));
        assert_eq!(reference::evaluate_into(rows, strings, trits, &[1], &mut room, &mut work), Err(first));
        assert_eq!(reference::translate_into(rows, strings, trits, &mut room, &mut work), Err(first));
        assert!(room == [MARK; 9] && work == words(LOGIC_WORK, 0), "a call refused 1 changes nothing");
    }
    let mut longer = tables.clone();
    longer.rows.push(5);
    longer.strings.push(5);
    longer.trits.push(5);
    assert_eq!(compared.evaluate(&longer, &[2], 9, 3), Ok(vec![2]));
    assert!(compared.translate(&longer, 99, 3).is_ok());
    compared.finish(8);
}
