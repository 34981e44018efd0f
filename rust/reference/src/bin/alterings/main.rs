//! Tables that are nearly good: the list `alterings` of `crates/cases` and the answers that the program there is held to.
//!
//! Each case gives a text, the places altered in its tables, and whether the documents call them good then; if not, they are refused 15
//! at 0. The plain reader has to agree: tables are good exactly if what they show, read again, is laid out as they are. So has the plain
//! check.
//! `alterings stdin` prints the cases, `alterings stdout` the answers.

#![forbid(unsafe_code)]

mod case;
mod fields;
mod pools;
mod rules;

use case::Case;
use reference::reading::canonical;
use reference::{check, lines, read, Tables};
use std::collections::HashSet;
use std::io::Write;
use std::panic::{catch_unwind, set_hook, take_hook};

fn all() -> Vec<Case> {
    let mut cases = pools::cases();
    cases.extend(rules::cases());
    cases.extend(fields::cases());
    cases
}

/// The tables of a case, or what is wrong about the case itself. What lies past a table counts for nothing.
fn altered(line: &str) -> Result<Tables, String> {
    let (places, text) = line.split_once('|').ok_or("no bar")?;
    let text = lines::text(text.as_bytes()).ok_or("no text")?;
    let mut tables = read(&text).map_err(|refusal| format!("the text is not read: {refusal:?}"))?;
    for place in places.split_terminator(' ') {
        let (at, value) = place.get(1..).and_then(|rest| rest.split_once(':')).ok_or("no place")?;
        let at: usize = at.parse().map_err(|_| "no place")?;
        let value: u32 = value.parse().map_err(|_| "no value")?;
        let same = match place.as_bytes()[0] {
            b'r' => tables.rows.get_mut(at).map(|word| std::mem::replace(word, value) == value),
            table => {
                let bytes = if table == b's' { &mut tables.strings } else { &mut tables.trits };
                let byte = u8::try_from(value).map_err(|_| "no byte")?;
                bytes.get_mut(at).map(|old| std::mem::replace(old, byte) == byte)
            }
        };
        if same == Some(true) {
            return Err(format!("{place} alters nothing"));
        }
    }
    Ok(tables)
}

/// Whether what tables show, read again, is laid out as they are. Tables far from good may show nothing at all.
fn good(tables: &Tables) -> bool {
    let few = tables.rows[9_411..14_019].chunks(9).all(|cell| cell[6..].iter().all(|runs| *runs <= 4_096));
    few && catch_unwind(|| canonical(tables)).map_or(false, |text| read(text.as_bytes()).as_ref() == Ok(tables))
}

fn main() -> std::io::Result<()> {
    let word = std::env::args().nth(1).unwrap_or_default();
    let mut out = Vec::new();
    let mut seen = HashSet::new();
    let mut wrong = 0;
    let hook = take_hook();
    set_hook(Box::new(|_| {}));
    for case in all() {
        let fault = match altered(&case.line) {
            Err(fault) => Some(fault),
            Ok(tables) if good(&tables) != case.good => Some(format!("the documents say: {}", told(&case))),
            Ok(tables) if check(&tables.rows, &tables.strings, &tables.trits).is_ok() != case.good => {
                Some(format!("the plain check differs; the documents say: {}", told(&case)))
            }
            Ok(_) => None,
        };
        if let Some(fault) = fault {
            wrong += 1;
            eprintln!("{}\n    {fault}", case.line);
        }
        if !seen.insert(case.line.clone()) {
            continue;
        }
        match word.as_str() {
            "stdin" => writeln!(out, "{}", case.line)?,
            "stdout" => writeln!(out, "{} -> {}", case.line, told(&case))?,
            _ => {}
        }
    }
    set_hook(hook);
    if wrong > 0 {
        eprintln!("{wrong} cases differ from the documents");
        std::process::exit(1);
    }
    if out.is_empty() {
        eprintln!(
            "{} tables, each good or not as the documents say; `alterings stdin` or `alterings stdout` prints them",
            seen.len()
        );
    }
    std::io::stdout().write_all(&out)
}

fn told(case: &Case) -> &'static str {
    match case.good {
        true => "good",
        false => "refused 15 at 0",
    }
}
