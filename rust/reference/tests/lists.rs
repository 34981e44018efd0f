//! The lists of `crates/cases` are those that the programs of this package print, and no case there differs from the documents.

use reference::cases::{kept, names};
use reference::{lines, read_into, read_into_lent, Tables, Work};
use std::process::Command;

/// The list in `crates/cases` is what the program of its name prints.
fn is_up_to_date(list: &str, program: &str) {
    for file in ["stdin", "stdout"] {
        let made = Command::new(program).arg(file).output().expect("the program runs");
        assert!(made.status.success(), "{}", String::from_utf8_lossy(&made.stderr));
        let same = made.stdout == kept(file, list).as_bytes();
        assert!(same, "the list {list} of crates/cases/{file} is not what `{list} {file}` prints");
    }
}

#[test]
fn readings_are_up_to_date() {
    is_up_to_date("readings", env!("CARGO_BIN_EXE_readings"));
}

#[test]
fn printings_are_up_to_date() {
    is_up_to_date("printings", env!("CARGO_BIN_EXE_printings"));
}

#[test]
fn alterings_are_up_to_date() {
    is_up_to_date("alterings", env!("CARGO_BIN_EXE_alterings"));
}

#[test]
fn namings_are_up_to_date() {
    is_up_to_date("namings", env!("CARGO_BIN_EXE_namings"));
}

#[test]
fn evaluations_are_up_to_date() {
    is_up_to_date("evaluations", env!("CARGO_BIN_EXE_evaluations"));
}

#[test]
fn translations_are_up_to_date() {
    is_up_to_date("translations", env!("CARGO_BIN_EXE_translations"));
}

/// The list of the text layer has no program here: it is held to as many lines in both files, each answered.
#[test]
fn no_other_list_is_there() {
    let all = ["forms", "readings", "printings", "alterings", "namings", "evaluations", "translations"];
    for file in ["stdin", "stdout"] {
        assert_eq!(names(file), all, "crates/cases/{file}");
    }
    let (texts, answers) = (kept("stdin", "forms"), kept("stdout", "forms"));
    assert_eq!(texts.lines().count(), answers.lines().count());
    for (text, answer) in texts.lines().zip(answers.lines()) {
        assert!(answer.strip_prefix(text).map_or(false, |rest| rest.starts_with(" -> ")), "{answer}");
    }
}

#[test]
fn a_lent_work_space_changes_no_answer() {
    let (mut tables, mut work) = (Tables::new(), Work::new());
    let (mut others, mut lent) = (Tables::new(), Work::new());
    for line in kept("stdin", "readings").lines() {
        let text = lines::text(line.as_bytes()).expect("a text");
        let told = read_into(&text, &mut tables, &mut work);
        assert_eq!(told, read_into_lent(&text, &mut others, &mut lent), "{line}");
        assert!(tables == others, "{line}");
    }
}
