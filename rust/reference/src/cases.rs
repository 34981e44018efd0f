//! Worked cases, each with the answer that the documents give it, printed as the input and the expected output of a program; and the
//! lists of them that `crates/cases` has, one behind the other.

use std::collections::HashSet;
use std::io::Write;

pub enum Answer {
    Is(String),
    /// How it begins; the second look alone says the rest.
    Begins(&'static str),
}

pub struct Case {
    pub line: String,
    pub answer: Answer,
}

impl Case {
    pub fn new(line: impl Into<String>, answer: impl Into<String>) -> Case {
        Case { line: line.into(), answer: Answer::Is(answer.into()) }
    }

    /// A case that the second look answers, but for how the answer begins.
    pub fn begins(line: impl Into<String>, answer: &'static str) -> Case {
        Case { line: line.into(), answer: Answer::Begins(answer) }
    }

    /// What is wrong about the case, if the second look answers this to its line.
    fn fault(&self, told: &Result<String, String>) -> Option<String> {
        match (told, &self.answer) {
            (Err(fault), _) => Some(fault.clone()),
            (Ok(told), Answer::Is(answer)) if told != answer => {
                Some(format!("the documents say: {answer}, the second look: {told}"))
            }
            (Ok(told), Answer::Begins(with)) if !told.starts_with(with) => {
                Some(format!("the documents say: {with}.., the second look: {told}"))
            }
            _ => None,
        }
    }
}

/// Cases one a line: `LINE => ANSWER`.
pub fn listed(list: &str) -> impl Iterator<Item = (&str, &str)> {
    list.lines().filter(|line| !line.is_empty()).map(|line| {
        let (line, answer) = line.split_once(" =>").unwrap_or_else(|| panic!("no case: {line}"));
        (line, answer.trim_start())
    })
}

/// Prints the lines where the program is called with `stdin`, and them with their answers where it is called with `stdout`. A case that
/// `answer`, the second look, answers otherwise than the documents is told, and the program stops.
pub fn print(cases: Vec<Case>, answer: impl Fn(&str) -> Result<String, String>) -> std::io::Result<()> {
    let word = std::env::args().nth(1).unwrap_or_default();
    let mut out = Vec::new();
    let mut seen = HashSet::new();
    let mut wrong = 0;
    for case in cases {
        let told = answer(&case.line);
        let twice = !seen.insert(case.line.clone());
        if let Some(fault) = case.fault(&told).or_else(|| twice.then(|| "listed twice".into())) {
            wrong += 1;
            eprintln!("{}\n    {fault}", case.line);
        }
        match word.as_str() {
            "stdin" => writeln!(out, "{}", case.line)?,
            "stdout" => writeln!(out, "{} -> {}", case.line, told.unwrap_or_default())?,
            _ => {}
        }
    }
    if wrong > 0 {
        eprintln!("{wrong} cases differ from the documents");
        std::process::exit(1);
    }
    if out.is_empty() {
        eprintln!("{} cases, each as the documents give it; the word `stdin` or `stdout` prints them", seen.len());
    }
    std::io::stdout().write_all(&out)
}

/// The lines of a list that `crates/cases` has in the file, `stdin` or `stdout`: those behind `@ LIST`, up to the next line with `@`.
pub fn kept(file: &str, list: &str) -> String {
    let heading = format!("@ {list}");
    let all = file_of_all(file);
    let behind = all.lines().skip_while(|line| *line != heading).skip(1);
    let lines: Vec<&str> = behind.take_while(|line| !line.starts_with('@')).collect();
    assert!(!lines.is_empty(), "crates/cases/{file} has no list {list}");
    lines.iter().map(|line| format!("{line}\n")).collect()
}

/// The names of the lists that the file has, in their order.
pub fn names(file: &str) -> Vec<String> {
    file_of_all(file).lines().filter_map(|line| line.strip_prefix("@ ")).map(str::to_owned).collect()
}

fn file_of_all(file: &str) -> String {
    let path = format!("{}/../../crates/cases/{file}", env!("CARGO_MANIFEST_DIR"));
    std::fs::read_to_string(path).expect("crates/cases is there")
}

const LETTERS: [char; 4] = ['0', '1', 'X', '3'];

/// Bits as bytes 0, 1 and 2, by their letters; 3 is a byte that is no bit.
pub fn letters(bits: &[u8]) -> String {
    bits.iter().map(|&bit| LETTERS[usize::from(bit)]).collect()
}

/// The bytes that at most 5,000 letters say.
pub fn bits(letters: &str) -> Option<Vec<u8>> {
    let bit = |letter| LETTERS.iter().position(|&known| known == letter).map(|bit| bit as u8);
    letters.chars().map(bit).collect::<Option<Vec<u8>>>().filter(|bits| bits.len() <= 5_000)
}

/// The text of a cell of this kind, given out, over inputs as its operands, and how many input bits it has. Operands have this width, but
/// for a mux's first and an adc's third.
pub fn cell_text(word: &str, width: usize) -> (String, usize) {
    let widths = match word {
        "buf" | "not" => vec![width],
        "mux" => vec![1, width, width],
        "adc" => vec![width, width, 1],
        _ => vec![width, width],
    };
    let made = match word {
        "adc" => width + 1,
        "eq" | "ult" | "slt" => 1,
        _ => width,
    };
    let inputs: String = widths.iter().enumerate().map(|(n, width)| format!("%{n}:{width} = input \"{n}\"\\n")).collect();
    let reads: String = widths.iter().enumerate().map(|(n, width)| format!(" %{n}:{width}")).collect();
    (format!("{inputs}%8:{made} = {word}{reads}\\n%9:0 = output \"y\" %8:{made}\\n"), widths.iter().sum())
}
