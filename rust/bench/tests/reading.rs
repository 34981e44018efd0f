//! The proved reader and the plain one give the same answers and the same tables: on worked texts, random netlists and changed ones.
//!
//! The random texts come from one seed, which is printed. `GRACKLEIVY_SEED=<number>` tries another one.

#![forbid(unsafe_code)]

use bench::{alike_netlist, any_netlist, changed, full_netlist, pads_netlist, paired_netlist, Random};
use grackleivy::{ROWS, STRINGS, TRITS, WORK};
use reference::cases::kept;
use reference::{lines, Refusal, Tables, Work};

/// Words and bytes that are lent beyond the fixed lengths.
const PAST: usize = 3;

/// What is lent to the library: full of something, and longer than needed.
#[derive(Clone, PartialEq)]
struct Lent {
    rows: Vec<u32>,
    strings: Vec<u8>,
    trits: Vec<u8>,
    work: Vec<u32>,
}

impl Lent {
    fn new() -> Lent {
        Lent {
            rows: vec![0; ROWS + PAST],
            strings: vec![0; STRINGS + PAST],
            trits: vec![0; TRITS + PAST],
            work: vec![0; WORK + PAST],
        }
    }

    fn fill(&mut self, byte: u8) {
        let word = u32::from_ne_bytes([byte; 4]);
        self.rows.fill(word);
        self.strings.fill(byte);
        self.trits.fill(byte);
        self.work.fill(word);
    }

    fn read(&mut self, text: &[u8]) -> Result<(), Refusal> {
        grackleivy::read(text, &mut self.rows, &mut self.strings, &mut self.trits, &mut self.work)
            .map_err(|refusal| Refusal { number: refusal.number, place: refusal.place })
    }
}

/// Compares the two on one text after the other and counts the texts.
struct Compared {
    name: &'static str,
    lent: Lent,
    tables: Tables,
    work: Work,
    texts: u64,
    taken: u64,
    byte: u8,
}

impl Compared {
    fn new(name: &'static str) -> Compared {
        Compared { name, lent: Lent::new(), tables: Tables::new(), work: Work::new(), texts: 0, taken: 0, byte: 0 }
    }

    fn text(&mut self, text: &[u8]) {
        self.byte = self.byte.wrapping_add(0x35);
        let (byte, word) = (self.byte, u32::from_ne_bytes([self.byte; 4]));
        self.lent.fill(byte);
        let told = self.lent.read(text);
        let plain = reference::read_into(text, &mut self.tables, &mut self.work);
        let at = || format!("{}: {}", self.name, shown(text));
        assert_eq!(told, plain, "library and reference differ, {}", at());
        assert!(self.lent.rows[..ROWS] == self.tables.rows[..], "rows differ, {}", at());
        assert!(self.lent.strings[..STRINGS] == self.tables.strings[..], "strings differ, {}", at());
        assert!(self.lent.trits[..TRITS] == self.tables.trits[..], "trits differ, {}", at());
        assert!(self.lent.work[..WORK].iter().all(|word| *word == 0), "the work space is not zero, {}", at());
        let past = self.lent.rows[ROWS..].iter().chain(&self.lent.work[WORK..]).all(|kept| *kept == word)
            && self.lent.strings[STRINGS..].iter().chain(&self.lent.trits[TRITS..]).all(|kept| *kept == byte);
        assert!(past, "something is changed past a table, {}", at());
        self.texts += 1;
        self.taken += u64::from(told.is_ok());
    }

    fn finish(self, least: u64) {
        println!("{}: {} texts, {} of them accepted, no difference", self.name, self.texts, self.taken);
        assert!(self.texts >= least, "{}: {} texts are fewer than {least}", self.name, self.texts);
    }
}

fn shown(text: &[u8]) -> String {
    let ends: String = text.iter().take(2000).flat_map(|&byte| std::ascii::escape_default(byte)).map(char::from).collect();
    format!("{} bytes: b'{ends}'", text.len())
}

fn seeded(name: &str) -> Random {
    let seed = std::env::var("GRACKLEIVY_SEED").ok().and_then(|word| word.parse().ok()).unwrap_or(20_261_115);
    println!("{name}: seed {seed}");
    Random::new(seed)
}

#[test]
fn worked_texts() {
    let mut compared = Compared::new("worked texts");
    let (texts, answers) = (kept("stdin", "readings"), kept("stdout", "readings"));
    assert_eq!(texts.lines().count(), answers.lines().count());
    for (line, answer) in texts.lines().zip(answers.lines()) {
        let text = lines::text(line.as_bytes()).expect("a text");
        compared.text(&text);
        let plain = lines::answer(&text, &mut compared.tables, &mut compared.work);
        assert_eq!(format!("{line} -> {plain}"), answer);
    }
    compared.finish(3_000);
}

#[test]
fn random_netlists() {
    let mut random = seeded("random netlists");
    let mut compared = Compared::new("random netlists");
    for _ in 0..4_000 {
        compared.text(&any_netlist(&mut random));
    }
    assert_eq!(compared.taken, compared.texts, "every netlist is accepted");
    compared.finish(4_000);
}

#[test]
fn changed_netlists() {
    let mut random = seeded("changed netlists");
    let mut compared = Compared::new("changed netlists");
    for _ in 0..20_000 {
        let mut text = any_netlist(&mut random);
        for _ in 0..1 + random.below(2) {
            if !text.is_empty() {
                text = changed(&text, &mut random);
            }
        }
        compared.text(&text);
    }
    compared.finish(20_000);
}

#[test]
fn two_netlists_in_one() {
    let mut random = seeded("two netlists");
    let mut compared = Compared::new("two netlists");
    for _ in 0..4_000 {
        let (one, other) = (any_netlist(&mut random), any_netlist(&mut random));
        compared.text(&[&one[..], &other[..]].concat());
    }
    compared.finish(4_000);
}

#[test]
fn netlists_near_the_limits() {
    let mut random = seeded("netlists near the limits");
    let mut compared = Compared::new("netlists near the limits");
    let more = [
        "%60000:1 = buf 1\n",
        "!60000 = scope #1\n",
        "&\"more\":1 = io\n",
        "%60000:200 = buf X*200\n",
        "!60000 = attr \"a\" 1\n",
        "\n",
    ];
    for seed in 0..60 {
        let text = full_netlist(65_536, seed);
        compared.text(&text);
        // the end is comments, so there is room for one declaration more
        let front = random.pick(&more);
        let mut longer = [front.as_bytes(), &text].concat();
        longer.truncate(65_535);
        longer.push(b'\n');
        compared.text(&longer);
        for _ in 0..20 {
            compared.text(&changed(&text, &mut random));
            compared.text(&changed(&longer, &mut random));
        }
    }
    compared.finish(2_400);
}

#[test]
fn names_alike() {
    let mut random = seeded("names alike");
    let mut compared = Compared::new("names alike");
    for kib in [4, 16, 64] {
        for maker in [alike_netlist, paired_netlist, pads_netlist] {
            let text = maker(kib << 10, 0);
            compared.text(&text);
            for _ in 0..60 {
                compared.text(&changed(&text, &mut random));
            }
        }
    }
    compared.finish(540);
}

#[test]
fn short_slices_are_refused_and_nothing_is_changed() {
    let text = b"%0:1 = input \"a\"\n";
    let mut lent = Lent { rows: vec![5; ROWS], strings: vec![5; STRINGS], trits: vec![5; TRITS], work: vec![5; WORK] };
    let before = lent.clone();
    let first = Err(Refusal { number: 1, place: 0 });
    for text in [&text[..], b"", b"$", &[0xff; 70_000]] {
        for (rows, strings, trits, work) in
            [(1, 0, 0, 0), (0, 1, 0, 0), (0, 0, 1, 0), (0, 0, 0, 1), (ROWS, 0, 0, 0), (0, STRINGS, TRITS, WORK)]
        {
            let told = grackleivy::read(
                text,
                &mut lent.rows[rows..],
                &mut lent.strings[strings..],
                &mut lent.trits[trits..],
                &mut lent.work[work..],
            );
            assert_eq!(told.map_err(|refusal| Refusal { number: refusal.number, place: refusal.place }), first);
            assert!(lent == before, "a read refused 1 changes something");
        }
    }
    assert_eq!(lent.read(text), Ok(()));
}
