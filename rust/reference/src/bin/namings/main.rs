//! Full names: the list `namings` of `crates/cases` and the answers that the program there is held to.
//!
//! Each case gives a row, a text, and the full name or the refusal that the documents give that row; the plain reader has to agree.
//! `namings stdin` prints the cases, `namings stdout` the answers.

#![forbid(unsafe_code)]

mod cases;

use reference::cases::print;
use reference::reading::full_name;
use reference::{lines, read, Refusal};

/// A name as a line: bytes 20-7E but the backslash stand for themselves.
fn told(name: &[u8]) -> String {
    let tell = |&byte: &u8| match byte {
        b'\\' => "\\\\".into(),
        0x20..=0x7e => char::from(byte).to_string(),
        _ => format!("\\x{byte:02x}"),
    };
    name.iter().map(tell).collect()
}

/// What the plain reader answers to a line, or what is wrong about the line itself.
fn answer(line: &str) -> Result<String, String> {
    let (row, text) = line.split_once(" |").ok_or("no blank and bar")?;
    let row: u32 = row.parse().map_err(|_| "no row")?;
    let text = lines::text(text.as_bytes()).filter(|text| text.len() <= 70_000).ok_or("no text of at most 70,000 bytes")?;
    Ok(match read(&text).and_then(|tables| full_name(&tables, row as usize)) {
        Ok(name) => told(&name),
        Err(Refusal { number, place }) => format!("refused {number} at {place}"),
    })
}

fn main() -> std::io::Result<()> {
    print(cases::all(), answer)
}
