//! A text, the places altered in its tables, and whether the documents call the tables good then.

/// The places of a table, by `docs/LAYOUT.md`.
pub fn meta(row: usize, field: usize, value: u32) -> String {
    word(3 + 16 * row + field, value)
}

pub fn member(member: usize, value: u32) -> String {
    word(8_195 + member, value)
}

pub fn io(row: usize, field: usize, value: u32) -> String {
    word(9_219 + 3 * row + field, value)
}

pub fn cell(row: usize, field: usize, value: u32) -> String {
    word(9_411 + 9 * row + field, value)
}

pub fn run(row: usize, field: usize, value: u32) -> String {
    word(14_019 + 3 * row + field, value)
}

pub fn word(at: usize, value: u32) -> String {
    format!("r{at}:{value} ")
}

pub fn string(at: usize, value: u8) -> String {
    format!("s{at}:{value} ")
}

/// A trit of an attribute.
pub fn attr_trit(at: usize, value: u8) -> String {
    format!("t{at}:{value} ")
}

/// A trit of a run.
pub fn run_trit(at: usize, value: u8) -> String {
    format!("t{}:{value} ", 131_072 + at)
}

#[derive(Clone)]
pub struct Case {
    pub line: String,
    pub good: bool,
}

/// The cases of one text.
pub struct Cases {
    text: &'static str,
    cases: Vec<Case>,
}

impl Cases {
    /// The text as it is: its tables are good.
    pub fn of(text: &'static str) -> Cases {
        Cases { text, cases: vec![Case { line: format!("|{text}"), good: true }] }
    }

    /// Tables that are not good with these places altered.
    pub fn bad<const N: usize>(mut self, places: [String; N]) -> Cases {
        self.cases.push(Case { line: format!("{}|{}", places.concat(), self.text), good: false });
        self
    }

    /// Tables that are good with these places altered, too.
    pub fn good<const N: usize>(mut self, places: [String; N]) -> Cases {
        self.cases.push(Case { line: format!("{}|{}", places.concat(), self.text), good: true });
        self
    }

    pub fn all(self) -> Vec<Case> {
        self.cases
    }
}
