//! A worked text with the answer that the documents give it, apart from any reader.

use reference::lines;

pub enum Answer {
    /// Number and place.
    Refused(u32, u64),
    Accepted,
    /// Accepted, and the canonical text has this line.
    Shows(String),
}

pub struct Case {
    pub line: String,
    pub answer: Answer,
}

pub fn accepted(line: impl Into<String>) -> Case {
    Case { line: line.into(), answer: Answer::Accepted }
}

/// A line whose refused place is marked by `^`, which is no part of it.
pub fn refused(number: u32, marked: impl AsRef<str>) -> Case {
    let marked = marked.as_ref();
    let (before, after) = marked.split_once('^').unwrap_or_else(|| panic!("no place is marked: {marked}"));
    let place = lines::text(before.as_bytes()).unwrap_or_else(|| panic!("no text: {before}")).len();
    Case { line: format!("{before}{after}"), answer: Answer::Refused(number, place as u64) }
}

/// Cases one a line: `ok LINE`, or the number and the line with its place marked.
pub fn listed(list: &str) -> Vec<Case> {
    let case = |line: &str| {
        let (word, line) = line.split_once(' ').unwrap_or_else(|| panic!("no case: {line}"));
        match word {
            "ok" => accepted(line),
            number => refused(number.parse().unwrap_or_else(|_| panic!("no number: {number}")), line),
        }
    };
    list.lines().filter(|line| !line.is_empty()).map(case).collect()
}
