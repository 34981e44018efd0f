//! A worked text with the canonical text or the refusal that the documents give it, apart from any printer.

use reference::{lines, LONGEST};

pub enum Answer {
    /// Number and place.
    Refused(u32, u64),
    /// The canonical text.
    Prints(Vec<u8>),
}

pub struct Case {
    pub line: String,
    pub answer: Answer,
}

/// The text that a line says.
pub fn said(line: &str) -> Vec<u8> {
    lines::text(line.as_bytes()).unwrap_or_else(|| panic!("no text: {line}"))
}

/// A text and its canonical twin, which prints itself; a twin too long to be read is refused 2.
pub fn pair(odd: impl Into<String>, twin: impl Into<String>) -> Vec<Case> {
    let (line, twin) = (odd.into(), twin.into());
    let text = said(&twin);
    let own = match text.len() > LONGEST {
        true => Answer::Refused(2, LONGEST as u64),
        false => Answer::Prints(text.clone()),
    };
    vec![Case { line, answer: Answer::Prints(text) }, Case { line: twin, answer: own }]
}

/// A text that is canonical.
pub fn same(line: impl Into<String>) -> Case {
    let line = line.into();
    Case { answer: Answer::Prints(said(&line)), line }
}

/// A line whose refused place is marked by `^`, which is no part of it.
pub fn refused(number: u32, marked: &str) -> Case {
    let (before, after) = marked.split_once('^').unwrap_or_else(|| panic!("no place is marked: {marked}"));
    Case { line: format!("{before}{after}"), answer: Answer::Refused(number, said(before).len() as u64) }
}

/// Cases one a line: `ODD => TWIN`, `same LINE`, or a number and the line with its place marked.
pub fn listed(list: &str) -> Vec<Case> {
    let case = |line: &str| match line.split_once(" => ") {
        Some((odd, twin)) => pair(odd, twin),
        None => {
            let (word, line) = line.split_once(' ').unwrap_or_else(|| panic!("no case: {line}"));
            match word {
                "same" => vec![same(line)],
                number => vec![refused(number.parse().unwrap_or_else(|_| panic!("no number: {number}")), line)],
            }
        }
    };
    list.lines().filter(|line| !line.is_empty()).flat_map(case).collect()
}
