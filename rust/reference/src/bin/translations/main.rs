//! Load lists, made and run: the list `translations` of `crates/cases` and the answers that the program there is held to.
//!
//! Each case gives a text and its load list, or input bits and a list and the output bits and slots of its run, or the refusal, as the
//! documents give them; the plain translator and the plain runner have to agree. `translations stdin` prints the cases, `translations
//! stdout` the answers.

#![forbid(unsafe_code)]

mod damaged;
mod hex;
mod kinds;
mod runs;
mod texts;

use hex::{bytes, hex};
use reference::cases::{bits, letters, print, Case};
use reference::reading::{evaluate, run, translate};
use reference::{lines, read, Refusal, Tables};

fn all() -> Vec<Case> {
    let mut cases = kinds::cases();
    cases.extend(texts::cases());
    cases.extend(runs::cases());
    cases.extend(damaged::cases());
    cases
}

/// What the plain translator or runner answers to a line, or what is wrong about the line itself.
fn answer(line: &str) -> Result<String, String> {
    let (sort, said) = line.split_once('|').ok_or("no bar")?;
    let said = lines::text(said.as_bytes()).ok_or("no text behind the bar")?;
    let told = match (sort, sort.strip_prefix("run ").and_then(|bits| bits.strip_suffix(' '))) {
        ("list ", _) if said.len() <= 70_000 => match read(&said).and_then(|tables| Ok((translate(&tables)?, tables))) {
            Ok((list, tables)) if !runs_as_evaluated(&list, &tables) => return Err("a run differs from the evaluation".into()),
            told => told.map(|(list, _)| records(&list)),
        },
        (_, Some(letters)) => {
            let list = bytes(&said).filter(|list| list.len() <= 70_000 && said.len() <= 140_000).ok_or("no list")?;
            let ins = bits(letters).ok_or("no bits")?;
            run(&list, &ins).map(|ran| format!("{}, slots {}", many_bits(&ran.outputs), many_bits(&ran.slots)))
        }
        _ => return Err("neither a list nor a run, or too long".into()),
    };
    Ok(told.unwrap_or_else(|Refusal { number, place }| format!("refused {number} at {place}")))
}

/// Whether the plain runner gives on the list what the plain evaluator gives on the tables.
fn runs_as_evaluated(list: &[u8], tables: &Tables) -> bool {
    let inputs = list.chunks(8).filter(|record| record[2] == 3).count() as u32;
    let settings: [fn(u32) -> u32; 4] = [|_| 1, |bit| bit % 2, |bit| bit / 2 % 3, |bit| bit * bit % 7 % 3];
    settings.iter().all(|setting| {
        let ins: Vec<u8> = (0..inputs).map(|bit| setting(bit) as u8).collect();
        run(list, &ins).map(|ran| ran.outputs) == evaluate(tables, &ins)
    })
}

/// A list in hex; a long one as its number of records and a sum over its bytes.
fn records(list: &[u8]) -> String {
    match list.len() / 8 {
        count if count > 64 => format!("{count} records, sum {}", lines::sum_of(list)),
        _ => hex(list),
    }
}

fn many_bits(bits: &[u8]) -> String {
    match bits.len() {
        count if count > 256 => format!("{count} bits, sum {}", lines::sum_of(bits)),
        _ => letters(bits),
    }
}

fn main() -> std::io::Result<()> {
    print(all(), answer)
}
