//! Times the proved library against the plain one in one run, on netlists of 4, 16 and 64 KiB.

#![forbid(unsafe_code)]

mod logic;
mod read;
mod tables;

use std::time::{Duration, Instant};

/// What is timed: a function from a text to a number that tells its answer.
pub type Work = Box<dyn FnMut(&[u8]) -> u64>;

/// Makes a text of so many bytes from a seed.
type Maker = fn(usize, u64) -> Vec<u8>;

/// A line of the table: the same work of the library and of the plain one.
pub struct Line {
    name: &'static str,
    library: Work,
    plain: Work,
    limit: Limit,
    text: Maker,
}

/// The library may take so many times the plain one's time: on every text, or on one of 64 KiB.
#[derive(Clone, Copy)]
pub enum Limit {
    None,
    Always(f64),
    AtFull(f64),
}

impl Limit {
    fn at(self, kib: usize) -> Option<f64> {
        match self {
            Limit::Always(limit) => Some(limit),
            Limit::AtFull(limit) if kib == 64 => Some(limit),
            _ => None,
        }
    }
}

fn library_scan(text: &[u8]) -> u64 {
    grackleivy::whole(text).map_or_else(|refusal| refusal.place, |()| u64::MAX)
}

fn library_tokens(text: &[u8]) -> u64 {
    grackleivy::tokens(text).unwrap_or_else(|refusal| refusal.place)
}

fn reference_scan(text: &[u8]) -> u64 {
    reference::whole(text).map_or_else(|refusal| refusal.place, |()| u64::MAX)
}

fn reference_scan_by_bytes(text: &[u8]) -> u64 {
    reference::whole_by_bytes(text).map_or_else(|refusal| refusal.place, |()| u64::MAX)
}

fn reference_tokens(text: &[u8]) -> u64 {
    reference::tokens(text).unwrap_or_else(|refusal| refusal.place)
}

fn lines() -> Vec<Line> {
    let line = |name, library: fn(&[u8]) -> u64, plain: fn(&[u8]) -> u64, limit| Line {
        name,
        library: Box::new(library),
        plain: Box::new(plain),
        limit,
        text: bench::netlist,
    };
    let mut lines = vec![
        line("scan", library_scan, reference_scan, Limit::Always(1.3)),
        line("scan, one byte a step", library_scan, reference_scan_by_bytes, Limit::None),
        line("scan + tokens", library_tokens, reference_tokens, Limit::Always(1.3)),
    ];
    lines.extend(read::lines());
    lines.extend(tables::lines());
    lines.extend(logic::lines());
    lines
}

/// The time of `calls` calls. Called through a pointer that is unknown here, no call can be left out.
#[inline(never)]
fn timed(work: &mut Work, text: &[u8], calls: u32) -> Duration {
    let start = Instant::now();
    let mut sum = 0u64;
    for _ in 0..calls {
        sum = sum.wrapping_add(work(text));
    }
    let time = start.elapsed();
    assert!(sum != 1, "no answer adds up to 1");
    time
}

/// The best time of one call of each, in microseconds, taken in turns.
fn best(works: [&mut Work; 2], text: &[u8], rounds: u32) -> [f64; 2] {
    let calls = ((256 << 10) / text.len()).max(1) as u32;
    let mut least = [Duration::MAX; 2];
    let [library, plain] = works;
    for _ in 0..rounds {
        least[0] = timed(library, text, calls).min(least[0]);
        least[1] = timed(plain, text, calls).min(least[1]);
    }
    least.map(|time| time.as_secs_f64() * 1e6 / f64::from(calls))
}

/// For counting instructions: calls one function so many times on one text, and nothing else.
fn only(name: &str, kib: usize, calls: u32) {
    let (mut work, text): (Work, Maker) = match name {
        "library-scan" => (Box::new(library_scan), bench::netlist),
        "library-tokens" => (Box::new(library_tokens), bench::netlist),
        "reference-scan" => (Box::new(reference_scan), bench::netlist),
        "reference-scan-by-bytes" => (Box::new(reference_scan_by_bytes), bench::netlist),
        "reference-tokens" => (Box::new(reference_tokens), bench::netlist),
        "library-read" => (read::library(), bench::full_netlist),
        "reference-read" => (read::reference(), bench::full_netlist),
        "reference-read-own" => (read::reference_kept(), bench::full_netlist),
        "library-alike" => (read::library(), bench::alike_netlist),
        "reference-alike" => (read::reference(), bench::alike_netlist),
        "library-pairs" => (read::library(), bench::paired_netlist),
        "reference-pairs" => (read::reference(), bench::paired_netlist),
        "library-check" => (tables::library_check(), bench::full_netlist),
        "reference-check" => (tables::reference_check(), bench::full_netlist),
        "library-check-alike" => (tables::library_check(), bench::alike_netlist),
        "reference-check-alike" => (tables::reference_check(), bench::alike_netlist),
        "library-print" => (tables::library_print(), bench::full_netlist),
        "reference-print" => (tables::reference_print(), bench::full_netlist),
        "reference-print-own" => (tables::reference_print_kept(), bench::full_netlist),
        "library-evaluate" => (logic::library_evaluate(), bench::wired_netlist),
        "reference-evaluate" => (logic::reference_evaluate(), bench::wired_netlist),
        "library-evaluate-turned" => (logic::library_evaluate(), bench::turned_netlist),
        "reference-evaluate-turned" => (logic::reference_evaluate(), bench::turned_netlist),
        "library-translate" => (logic::library_translate(), bench::wired_netlist),
        "reference-translate" => (logic::reference_translate(), bench::wired_netlist),
        "library-run" => (logic::library_run(), bench::wired_netlist),
        "reference-run" => (logic::reference_run(), bench::wired_netlist),
        _ => panic!("no function has the name {name}"),
    };
    timed(&mut work, &text(kib << 10, kib as u64), calls);
}

fn main() {
    let words: Vec<String> = std::env::args().skip(1).collect();
    if let [name, kib, calls] = &words[..] {
        only(name, kib.parse().expect("KiB"), calls.parse().expect("calls"));
        return;
    }
    let rounds = words.first().map_or(400, |word| word.parse().expect("rounds"));

    println!("best of {rounds} rounds, library and plain Rust in turns; microseconds a call");
    println!();
    println!("{:>6}  {:<22} {:>10} {:>10} {:>7} {:>6}", "KiB", "work", "library", "reference", "ratio", "limit");
    let mut over = 0;
    for kib in [4, 16, 64] {
        for mut line in lines() {
            let (name, text) = (line.name, (line.text)(kib << 10, kib as u64));
            assert_eq!(text.len(), kib << 10);
            let answer = (line.library)(&text);
            assert_eq!(answer, (line.plain)(&text), "the answers differ: {name}, {kib} KiB");
            assert!(answer > 400, "the text is taken");
            let [a, b] = best([&mut line.library, &mut line.plain], &text, rounds);
            let ratio = a / b;
            let verdict = match line.limit.at(kib) {
                None => "     -  no limit".to_string(),
                Some(limit) if ratio <= limit => format!("{limit:>6}  within"),
                Some(limit) => format!("{limit:>6}  OVER"),
            };
            over += u32::from(verdict.ends_with("OVER"));
            println!("{kib:>6}  {name:<22} {a:>10.2} {b:>10.2} {ratio:>7.2} {verdict}");
        }
    }
    println!();
    match over {
        0 => println!("every ratio is within the limit"),
        _ => println!("{over} ratios are over the limit"),
    }
}
