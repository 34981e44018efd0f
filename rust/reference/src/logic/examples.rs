//! Document 01's lines on load lists, and the evaluator beside the one that asks, the list's run beside both.

use super::*;
use crate::reading::evaluate;
use crate::{read, Tables};

const MARK: u8 = 0xa5;

fn list_of(tables: &Tables) -> Result<Vec<u8>, u32> {
    let mut list = vec![MARK; RECORD * MOST_RECORDS];
    let mut work = vec![7; LOGIC_WORK];
    let told = translate_into(&tables.rows, &tables.strings, &tables.trits, &mut list, &mut work);
    assert!(work.iter().all(|&word| word == 0));
    let count = told.map_err(|refusal| refusal.number)?;
    list.truncate(RECORD * count);
    Ok(list)
}

fn ran(list: &[u8], ins: &[u8]) -> Result<Vec<u8>, Refusal> {
    let (mut outs, mut work) = ([MARK; 4_096], vec![7; RUN_WORK]);
    let count = run_into(list, ins, &mut outs, &mut work)?;
    assert!(work[list.len() / RECORD..].iter().all(|&byte| byte == 0));
    Ok(outs[..count].to_vec())
}

fn evaluated(tables: &Tables, ins: &[u8]) -> Result<Vec<u8>, Refusal> {
    let (mut outs, mut work) = ([MARK; 4_096], vec![7; LOGIC_WORK]);
    let told = evaluate_into(&tables.rows, &tables.strings, &tables.trits, ins, &mut outs, &mut work);
    assert!(work.iter().all(|&word| word == 0));
    told.map(|count| outs[..count].to_vec())
}

#[test]
fn the_listing_of_document_01() {
    let text = b"%9:1 = input \"a\"\n%3:1 = input \"b\"\n%0:2 = adc %9 %3 0\n%7:0 = output \"sum\" [%0+1 %0+0]\n";
    let list = list_of(&read(text).unwrap()).unwrap();
    let lines: Vec<String> = list.chunks(8).map(|record| record.iter().map(|byte| format!("{byte:02x}")).collect()).collect();
    let expected = "4753000000000000 4753010000000000 4753020000000000 4753030000000000 4753030001000000 4753070003000400 \
         4753070005000000 4753050003000400 4753060003000400 4753050008000000 4753060007000900 4753080006000000 475308000a000100";
    assert_eq!(lines.join(" "), expected);
    assert_eq!(ran(&list, &[1, 1]), Ok(vec![0, 1]));
    assert_eq!(ran(&list, &[2, 0]), Ok(vec![2, 0]));
}

#[test]
fn the_most_records_and_one_more() {
    let text = |bits: usize| {
        let cells: String = (0..15).map(|n| format!("%{}:1 = eq %0:256 %0:256\n", 300 + n)).collect();
        format!("%0:256 = input \"a\"\n{cells}%400:0 = output \"y\" %0:{bits}\n")
    };
    let list = list_of(&read(text(253).as_bytes()).unwrap()).unwrap();
    assert_eq!(list.len(), RECORD * MOST_RECORDS);
    assert_eq!(ran(&list, &[1; 256]), Ok(vec![1; 253]));
    assert_eq!(list_of(&read(text(254).as_bytes()).unwrap()), Err(21));
}

#[test]
fn rings_are_refused_by_both() {
    let tables = read(b"%0:1 = buf %0\n").unwrap();
    assert_eq!(list_of(&tables), Err(20));
    assert_eq!(evaluated(&tables, &[]), Err(refusal(20, 0)));
}

#[test]
fn bad_records_by_their_place() {
    let told = |list: &[u8]| ran(list, &[]).unwrap_err();
    let (zero, not_0) = ([0x47, 0x53, 0, 0, 0, 0, 0, 0], [0x47, 0x53, 4, 0, 0, 0, 0, 0]);
    assert_eq!(ran(&[], &[]), Ok(vec![]));
    assert_eq!(told(&not_0), refusal(22, 0));
    assert_eq!(told(&zero[..7]), refusal(22, 0));
    assert_eq!(told(&[&zero[..], &not_0, &zero, &[0x47]].concat()), refusal(22, 24));
    assert_eq!(ran(&[&zero[..], &not_0].concat(), &[3]), Err(refusal(23, 0)));
    assert_eq!(told(&zero.repeat(8_193)), refusal(22, 65_536));
    assert_eq!(ran(&zero.repeat(8_192), &[]), Ok(vec![]));
}

/// Every worked evaluation: the evaluator that asks says what the one that places says, and the list runs to the same bits.
#[test]
fn worked_evaluations_three_times() {
    let mut answered = 0;
    for line in crate::cases::kept("stdin", "evaluations").lines() {
        let (bits, text) = line.split_once(" |").expect("bits and a text");
        let ins: Vec<u8> = bits.chars().map(|letter| "01X3".find(letter).expect("a bit") as u8).collect();
        let tables = match read(&crate::lines::text(text.as_bytes()).expect("a text")) {
            Ok(tables) => tables,
            Err(_) => continue,
        };
        let asked = evaluate(&tables, &ins);
        assert_eq!(evaluated(&tables, &ins), asked, "{line}");
        if let (Ok(bits), Ok(list)) = (asked, list_of(&tables)) {
            assert_eq!(ran(&list, &ins), Ok(bits), "{line}");
            answered += 1;
        }
    }
    assert!(answered > 200, "{answered} lists were run");
}
