//! The worked texts of reading: the list `readings` of `crates/cases` and the answers that the program there is held to.
//!
//! Each case gives a text and, but for the sums over its tables, the answer that the documents give it; the plain reader has to agree.
//! `readings stdin` prints the texts, `readings stdout` the answers, `readings show` the answers with the canonical texts.

#![forbid(unsafe_code)]

mod case;
mod documents;
mod limits;
mod order;
mod pieces;
mod rules;

use case::{Answer, Case};
use reference::reading::canonical;
use reference::{lines, Tables, Work};
use std::collections::HashSet;
use std::io::Write;

fn all() -> Vec<Case> {
    let mut cases = documents::cases();
    cases.extend(limits::cases());
    cases.extend(order::cases());
    cases.extend(rules::cases());
    cases.extend(pieces::cases());
    cases
}

/// What is wrong about a case, if anything, and the answer to it.
fn judged(case: &Case, tables: &mut Tables, work: &mut Work) -> (String, Option<String>) {
    let text = match lines::text(case.line.as_bytes()) {
        Some(text) if text.len() <= 70_000 => text,
        _ => return (String::new(), Some("no text of at most 70,000 bytes".into())),
    };
    let answer = lines::answer(&text, tables, work);
    let accepted = !answer.starts_with("refused");
    let shown = if accepted { canonical(tables) } else { String::new() };
    let wrong = match &case.answer {
        Answer::Refused(number, place) if answer != format!("refused {number} at {place}") => {
            Some(format!("the documents say: refused {number} at {place}"))
        }
        Answer::Accepted | Answer::Shows(_) if !accepted => Some("the documents accept it".into()),
        Answer::Shows(line) if !shown.lines().any(|shown| shown == line) => Some(format!("not shown: {line}\n{shown}")),
        _ => None,
    };
    // what is accepted says the same when it is printed and read again
    let again = accepted && shown.len() <= reference::LONGEST && reference::read(shown.as_bytes()).as_ref() != Ok(tables);
    (answer, if again { Some("the canonical text says something else".into()) } else { wrong })
}

fn main() -> std::io::Result<()> {
    let word = std::env::args().nth(1).unwrap_or_default();
    let (mut tables, mut work) = (Tables::new(), Work::new());
    let mut out = Vec::new();
    let mut seen = HashSet::new();
    let mut wrong = 0;
    for case in all() {
        let (answer, fault) = judged(&case, &mut tables, &mut work);
        if let Some(fault) = fault {
            wrong += 1;
            eprintln!("{} -> {answer}\n    {fault}", case.line);
        }
        if !seen.insert(case.line.clone()) {
            continue;
        }
        match word.as_str() {
            "stdin" => writeln!(out, "{}", case.line)?,
            "stdout" => writeln!(out, "{} -> {answer}", case.line)?,
            "show" if answer.starts_with("refused") => writeln!(out, "{} -> {answer}", case.line)?,
            "show" => writeln!(out, "{} -> {answer}\n{}", case.line, canonical(&tables))?,
            _ => {}
        }
    }
    if wrong > 0 {
        eprintln!("{wrong} answers differ from the documents");
        std::process::exit(1);
    }
    if out.is_empty() {
        eprintln!(
            "{} texts, every answer as the documents give it; `readings stdin` or `readings stdout` prints them",
            seen.len()
        );
    }
    std::io::stdout().write_all(&out)
}
