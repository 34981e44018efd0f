//! The worked texts of printing: the list `printings` of `crates/cases` and the answers that the program there is held to.
//!
//! Each case gives a text and the canonical text, or the refusal, that the documents give it; the plain reader has to agree.
//! `printings stdin` prints the texts, `printings stdout` the answers.

#![forbid(unsafe_code)]

mod case;
mod sizes;
mod strings;
mod styles;

use case::{Answer, Case};
use reference::reading::canonical;
use reference::{lines, Tables, Work, LONGEST};
use std::collections::HashSet;
use std::io::Write;

fn all() -> Vec<Case> {
    let mut cases = styles::cases();
    cases.extend(strings::cases());
    cases.extend(sizes::cases());
    cases
}

/// The answer to a case, and what is wrong about it, if anything.
fn judged(case: &Case, tables: &mut Tables, work: &mut Work) -> (String, Option<String>) {
    let text = match lines::text(case.line.as_bytes()) {
        Some(text) if text.len() <= 70_000 => text,
        _ => return (String::new(), Some("no text of at most 70,000 bytes".into())),
    };
    let answer = lines::printed(&text, tables, work);
    let wrong = match &case.answer {
        Answer::Refused(number, place) if answer != format!("refused {number} at {place}") => {
            Some(format!("the documents say: refused {number} at {place}"))
        }
        Answer::Prints(text) if answer != lines::told(text) => Some(format!("the documents say: {}", lines::told(text))),
        _ => None,
    };
    if answer.starts_with("refused") {
        return (answer, wrong);
    }
    // what is printed says the same when it is read again
    let shown = canonical(tables);
    let again = shown.len() <= LONGEST && reference::read(shown.as_bytes()).as_ref() != Ok(tables);
    (answer, if again { Some("the canonical text says something else".into()) } else { wrong })
}

fn main() -> std::io::Result<()> {
    let word = std::env::args().nth(1).unwrap_or_default();
    let (mut tables, mut work) = (Tables::new(), Work::new());
    let mut out = Vec::new();
    let mut seen = HashSet::new();
    let mut wrong = 0;
    for case in all() {
        let (answer, fault) = judged(&case, &mut tables, &mut work);
        if let Some(fault) = fault {
            wrong += 1;
            eprintln!("{} -> {answer}\n    {fault}", case.line);
        }
        if !seen.insert(case.line.clone()) {
            continue;
        }
        match word.as_str() {
            "stdin" => writeln!(out, "{}", case.line)?,
            "stdout" => writeln!(out, "{} -> {answer}", case.line)?,
            _ => {}
        }
    }
    if wrong > 0 {
        eprintln!("{wrong} answers differ from the documents");
        std::process::exit(1);
    }
    if out.is_empty() {
        eprintln!(
            "{} texts, every canonical text as the documents give it; `printings stdin` or `printings stdout` prints them",
            seen.len()
        );
    }
    std::io::stdout().write_all(&out)
}
