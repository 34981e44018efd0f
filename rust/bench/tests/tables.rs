//! The proved check, printer, writer of full names and lookup give the same answers as the plain ones: on the tables of worked texts and
//! random netlists, as they are and with one word or byte changed.
//!
//! The random texts come from one seed, which is printed. `GRACKLEIVY_SEED=<number>` tries another one.

#![forbid(unsafe_code)]

use bench::{alike_netlist, any_netlist, full_netlist, pads_netlist, paired_netlist, Random};
use grackleivy::{ROWS, STRINGS, TRITS};
use reference::cases::kept;
use reference::reading::{canonical, full_name};
use reference::{lines, Refusal, Tables};

/// What is lent as room: longer than most texts, and full of something.
const ROOM: usize = 4_096;
const MARK: u8 = 0xa5;

fn told<T>(answer: Result<T, grackleivy::Refusal>) -> Result<T, Refusal> {
    answer.map_err(|refusal| Refusal { number: refusal.number, place: refusal.place })
}

/// Compares the two on one set of tables after the other, and counts them.
struct Compared {
    name: &'static str,
    tables: u64,
    good: u64,
}

impl Compared {
    fn new(name: &'static str) -> Compared {
        Compared { name, tables: 0, good: 0 }
    }

    /// The answers of the check and of the printer in a room of some length.
    fn check(&mut self, tables: &Tables, at: &dyn Fn() -> String) -> bool {
        let (rows, strings, trits) = (&tables.rows[..], &tables.strings[..], &tables.trits[..]);
        let plain = reference::check(rows, strings, trits);
        assert_eq!(told(grackleivy::check(rows, strings, trits)), plain, "the checks differ, {}: {}", self.name, at());
        self.tables += 1;
        self.good += u64::from(plain.is_ok());
        self.print(tables, ROOM, at).ok();
        plain.is_ok()
    }

    fn print(&self, tables: &Tables, size: usize, at: &dyn Fn() -> String) -> Result<usize, Refusal> {
        let (rows, strings, trits) = (&tables.rows[..], &tables.strings[..], &tables.trits[..]);
        let (mut room, mut other) = (vec![MARK; size], vec![MARK; size]);
        let length = told(grackleivy::print(rows, strings, trits, &mut room));
        assert_eq!(
            length,
            reference::print_into(rows, strings, trits, &mut other),
            "the printers differ, {}: {}",
            self.name,
            at()
        );
        assert!(room == other, "the rooms differ, {}: {}", self.name, at());
        let written = length.unwrap_or(0);
        assert!(room[written..].iter().all(|byte| *byte == MARK), "room past the text is changed, {}: {}", self.name, at());
        length
    }

    /// Good tables in the shortest room, in one that is shorter by a byte, and by a kept buffer.
    fn print_closely(&self, tables: &Tables, at: &dyn Fn() -> String) {
        let text = canonical(tables);
        assert_eq!(self.print(tables, text.len(), at), Ok(text.len()), "{}: {}", self.name, at());
        assert_eq!(self.print(tables, text.len() - 1, at), Err(Refusal { number: 24, place: 0 }), "{}: {}", self.name, at());
        let (mut room, mut buffer) = (vec![MARK; text.len()], Vec::new());
        let length = reference::print_by_buffer(&tables.rows, &tables.strings, &tables.trits, &mut room, &mut buffer);
        assert_eq!((length, &room[..]), (Ok(text.len()), text.as_bytes()), "{}: {}", self.name, at());
    }

    /// The full name of each row of good tables, and of rows that there are not.
    fn names(&self, tables: &Tables, at: &dyn Fn() -> String) {
        let rows = tables.rows[0] as usize;
        for row in (0..rows + 2).chain([512, 1 << 32, usize::MAX]) {
            let plain = full_name(tables, row);
            let size = plain.as_ref().map_or(0, Vec::len);
            let mut room = vec![MARK; size + 1];
            let length = told(grackleivy::name(&tables.rows, &tables.strings, &tables.trits, row, &mut room));
            assert_eq!(length.map(|length| room[..length].to_vec()), plain, "row {row}, {}: {}", self.name, at());
            assert!(room[size..].iter().all(|byte| *byte == MARK), "row {row}, {}: {}", self.name, at());
            if size > 0 {
                let short = told(grackleivy::name(&tables.rows, &tables.strings, &tables.trits, row, &mut room[..size - 1]));
                assert_eq!(short, Err(Refusal { number: 24, place: 0 }), "row {row}, {}: {}", self.name, at());
            }
        }
    }

    /// The pad of each name of good tables, and of names that are nearly one.
    fn pads(&self, tables: &Tables, at: &dyn Fn() -> String) {
        let words = &tables.rows[9_219..][..3 * tables.rows[1] as usize];
        let name = |row: &[u32]| tables.strings[row[0] as usize..][..row[1] as usize].to_vec();
        for row in words.chunks_exact(3) {
            let name_here = name(row);
            for asked in [&name_here[..], &name_here[1..], &[&name_here[..], b"0"].concat(), b"", b"x"] {
                let plain = words.chunks_exact(3).position(|row| name(row) == asked);
                let found = told(grackleivy::pad(&tables.rows, &tables.strings, &tables.trits, asked));
                let plain = plain.map(|row| (row as u64, words[3 * row + 2])).ok_or(Refusal { number: 18, place: 0 });
                assert_eq!(found.map(|pad| (pad.row, pad.width)), plain, "{asked:?}, {}: {}", self.name, at());
            }
        }
    }

    fn all(&mut self, text: &[u8]) -> Tables {
        let tables = reference::read(text).expect("accepted");
        let at = || shown(text);
        assert!(self.check(&tables, &at), "tables of an accepted text are not good, {}", at());
        self.print_closely(&tables, &at);
        self.names(&tables, &at);
        self.pads(&tables, &at);
        tables
    }

    fn finish(self, least: u64) {
        println!("{}: {} tables, {} of them good, no difference", self.name, self.tables, self.good);
        assert!(self.tables >= least, "{}: {} tables are fewer than {least}", self.name, self.tables);
    }
}

fn shown(text: &[u8]) -> String {
    let start: String = text.iter().take(2000).flat_map(|&byte| std::ascii::escape_default(byte)).map(char::from).collect();
    format!("{} bytes: b'{start}'", text.len())
}

fn seeded(name: &str) -> Random {
    let seed = std::env::var("GRACKLEIVY_SEED").ok().and_then(|word| word.parse().ok()).unwrap_or(20_261_115);
    println!("{name}: seed {seed}");
    Random::new(seed)
}

/// A place of the rows where something stands or could stand next; now and then any place at all.
fn row_place(tables: &Tables, random: &mut Random) -> usize {
    let [metas, ios, cells] = [0, 1, 2].map(|word| tables.rows[word] as usize);
    let used = |from: usize| tables.rows[from..].iter().take_while(|word| **word != 0).count();
    match random.below(8) {
        0 => random.below(3),
        1 | 2 => 3 + random.below(16 * metas + 16),
        3 => 8_195 + random.below(used(8_195) + 2),
        4 => 9_219 + random.below(3 * ios + 3),
        5 => 9_411 + random.below(9 * cells + 9),
        6 => 14_019 + random.below((9 * cells + 3).min(12_288)),
        _ => random.below(ROWS),
    }
    .min(ROWS - 1)
}

/// A byte where something stands or could stand next; now and then any byte at all.
fn byte_place(bytes: &[u8], from: usize, random: &mut Random) -> usize {
    let used = bytes[from..].iter().take_while(|byte| **byte != 0).count();
    match random.below(8) {
        0 => random.below(bytes.len()),
        _ => (from + random.below(used + 40)).min(bytes.len() - 1),
    }
}

/// Changes one word or byte and gives what to put back.
fn change(tables: &mut Tables, random: &mut Random) -> (usize, usize, u32) {
    match random.below(4) {
        0 => {
            let at = byte_place(&tables.strings, 0, random);
            let other = tables.strings[random.below(200)];
            let value = random.pick(&[other, b'a', 0, tables.strings[at] ^ 1, 0xff]);
            (1, at, u32::from(std::mem::replace(&mut tables.strings[at], value)))
        }
        1 => {
            let from = random.pick(&[0, 131_072]);
            let at = byte_place(&tables.trits, from, random);
            (2, at, u32::from(std::mem::replace(&mut tables.trits[at], random.pick(&[0, 1, 2, 3, 255]))))
        }
        _ => {
            let at = row_place(tables, random);
            let old = tables.rows[at];
            let other = tables.rows[row_place(tables, random)];
            let few = random.below(20) as u32;
            let value = random.pick(&[old.wrapping_add(1), old.wrapping_sub(1), 0, 1, few, other, 256, 257, 1 << 31, u32::MAX]);
            tables.rows[at] = value;
            (0, at, old)
        }
    }
}

fn put_back(tables: &mut Tables, (table, at, old): (usize, usize, u32)) {
    match table {
        0 => tables.rows[at] = old,
        1 => tables.strings[at] = old as u8,
        _ => tables.trits[at] = old as u8,
    }
}

fn changes(compared: &mut Compared, text: &[u8], times: usize, random: &mut Random) {
    let mut tables = compared.all(text);
    for _ in 0..times {
        let back = change(&mut tables, random);
        let at = || format!("table {} at {} changed in {}", back.0, back.1, shown(text));
        compared.check(&tables, &at);
        put_back(&mut tables, back);
    }
}

#[test]
fn worked_texts() {
    let mut compared = Compared::new("worked texts");
    for line in kept("stdin", "readings").lines() {
        let text = lines::text(line.as_bytes()).expect("a text");
        if reference::read(&text).is_ok() {
            compared.all(&text);
        }
    }
    compared.finish(600);
}

#[test]
fn random_netlists_with_a_place_changed() {
    let mut random = seeded("random netlists with a place changed");
    let mut compared = Compared::new("random netlists with a place changed");
    for _ in 0..400 {
        let text = any_netlist(&mut random);
        changes(&mut compared, &text, 40, &mut random);
    }
    compared.finish(16_000);
}

#[test]
fn full_netlists_with_a_place_changed() {
    let mut random = seeded("full netlists with a place changed");
    let mut compared = Compared::new("full netlists with a place changed");
    for kib in [4, 16, 64] {
        changes(&mut compared, &full_netlist(kib << 10, kib as u64), 500, &mut random);
        for maker in [alike_netlist, paired_netlist, pads_netlist] {
            changes(&mut compared, &maker(kib << 10, 0), 500, &mut random);
        }
    }
    compared.finish(6_000);
}

#[test]
fn short_tables_are_refused_and_longer_ones_are_cut() {
    let mut tables = reference::read(b"&\"p\":3 = io\n%0:1 = input \"a\"\n").expect("accepted");
    let first = Err(Refusal { number: 1, place: 0 });
    for (rows, strings, trits) in [(1, 0, 0), (0, 1, 0), (0, 0, 1), (ROWS, STRINGS, TRITS)] {
        let (rows, strings, trits) = (&tables.rows[rows..], &tables.strings[strings..], &tables.trits[trits..]);
        assert_eq!(told(grackleivy::check(rows, strings, trits)), first);
        assert_eq!(told(grackleivy::print(rows, strings, trits, &mut [])).map(|_| ()), first);
        assert_eq!(told(grackleivy::name(rows, strings, trits, 0, &mut [])).map(|_| ()), first);
        assert_eq!(told(grackleivy::pad(rows, strings, trits, b"p")).map(|_| ()), first);
    }
    tables.rows.push(5);
    tables.strings.push(5);
    tables.trits.push(5);
    assert_eq!(grackleivy::check(&tables.rows, &tables.strings, &tables.trits), Ok(()));
}
