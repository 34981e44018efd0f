//! Netlists worked out: the list `evaluations` of `crates/cases` and the answers that the program there is held to.
//!
//! Each case gives input bits, a text, and the output bits or the refusal that the documents give them; the plain evaluator has to agree.
//! `evaluations stdin` prints the cases, `evaluations stdout` the answers.

#![forbid(unsafe_code)]

mod cases;
mod wide;

use reference::cases::{letters, print};
use reference::reading::evaluate;
use reference::{lines, read, Refusal};

/// What the plain evaluator answers to a line, or what is wrong about the line itself.
fn answer(line: &str) -> Result<String, String> {
    let (bits, text) = line.split_once(" |").ok_or("no blank and bar")?;
    let ins = reference::cases::bits(bits).ok_or("no bits")?;
    let text = lines::text(text.as_bytes()).filter(|text| text.len() <= 70_000).ok_or("no text of at most 70,000 bytes")?;
    Ok(match read(&text).and_then(|tables| evaluate(&tables, &ins)) {
        Ok(bits) => letters(&bits),
        Err(Refusal { number, place }) => format!("refused {number} at {place}"),
    })
}

fn main() -> std::io::Result<()> {
    print(cases::all().into_iter().chain(wide::all()).collect(), answer)
}
