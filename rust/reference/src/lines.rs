//! Worked texts, one a line, as `crates/cases/stdin` has them, and the line that tells what reading or printing answers.
//!
//! `\n`, `\r`, `\t`, `\\` and `\xHH` are escapes, and other bytes stand for themselves. `\{N|BODY}` stands for BODY N times, where `\#`
//! is the number of the round, from 0 on; `}` within a body is written `\x7d`. `\@K ` at the front lets rounds begin at K.

use crate::reading::canonical;
use crate::{read_into, Refusal, Tables, Work};

/// The text that a line says; `None` if the line is not of this form.
pub fn text(line: &[u8]) -> Option<Vec<u8>> {
    let (first, mut rest) = first_round(line)?;
    let mut text = Vec::new();
    while let Some((&byte, after)) = rest.split_first() {
        if rest.starts_with(b"\\{") {
            let end = rest.iter().position(|&byte| byte == b'}')?;
            let bar = rest.iter().position(|&byte| byte == b'|')?;
            let times = decimal(rest.get(2..bar)?)?;
            let body = rest.get(bar + 1..end)?;
            for round in first..first + times {
                write(body, Some(round), &mut text)?;
            }
            rest = &rest[end + 1..];
        } else {
            let size = if byte == b'\\' { escape_size(after)? + 1 } else { 1 };
            write(rest.get(..size)?, None, &mut text)?;
            rest = &rest[size..];
        }
    }
    Some(text)
}

fn first_round(line: &[u8]) -> Option<(u32, &[u8])> {
    match line.strip_prefix(b"\\@") {
        None => Some((0, line)),
        Some(rest) => {
            let blank = rest.iter().position(|&byte| byte == b' ')?;
            Some((decimal(&rest[..blank])?, &rest[blank + 1..]))
        }
    }
}

fn decimal(digits: &[u8]) -> Option<u32> {
    std::str::from_utf8(digits).ok()?.parse().ok()
}

/// How many bytes an escape takes behind its backslash.
fn escape_size(after: &[u8]) -> Option<usize> {
    match after.first()? {
        b'x' => Some(3),
        _ => Some(1),
    }
}

/// Writes bytes and escapes out.
fn write(mut from: &[u8], round: Option<u32>, text: &mut Vec<u8>) -> Option<()> {
    while let Some((&byte, after)) = from.split_first() {
        if byte != b'\\' {
            text.push(byte);
            from = after;
            continue;
        }
        let (escape, after) = after.split_at(escape_size(after)?.min(after.len()));
        match escape {
            b"n" => text.push(b'\n'),
            b"r" => text.push(b'\r'),
            b"t" => text.push(b'\t'),
            b"\\" => text.push(b'\\'),
            b"#" => text.extend_from_slice(round?.to_string().as_bytes()),
            [b'x', digits @ ..] => text.push(u8::from_str_radix(std::str::from_utf8(digits).ok()?, 16).ok()?),
            _ => return None,
        }
        from = after;
    }
    Some(())
}

/// What reading answers, in the words of the list `readings` behind the line and its arrow.
pub fn answer(text: &[u8], tables: &mut Tables, work: &mut Work) -> String {
    match read_into(text, tables, work) {
        Err(Refusal { number, place }) => {
            let clear =
                tables.rows.iter().all(|word| *word == 0) && tables.strings.iter().chain(&tables.trits).all(|byte| *byte == 0);
            format!("refused {number} at {place}{}", if clear { "" } else { " (not cleared)" })
        }
        Ok(()) => {
            let rows = &tables.rows;
            let sums = [sum(rows.iter().copied()), sum_of(&tables.strings), sum_of(&tables.trits)];
            format!(
                "{} metadata, {} pads, {} cells; rows {}, strings {}, trits {}",
                rows[0], rows[1], rows[2], sums[0], sums[1], sums[2]
            )
        }
    }
}

/// What printing answers to the tables of a text, in the words of the list `printings` behind the line and its arrow.
pub fn printed(text: &[u8], tables: &mut Tables, work: &mut Work) -> String {
    match read_into(text, tables, work) {
        Err(Refusal { number, place }) => format!("refused {number} at {place}"),
        Ok(()) => told(canonical(tables).as_bytes()),
    }
}

/// A canonical text as a line, if it has at most 2,000 bytes, else how long it is and a sum over it.
pub fn told(text: &[u8]) -> String {
    if text.len() > 2_000 {
        return format!("{} bytes, sum {}", text.len(), sum_of(text));
    }
    let tell = |&byte: &u8| match byte {
        b'\n' => "\\n".into(),
        b'\\' => "\\\\".into(),
        _ => char::from(byte).to_string(),
    };
    text.iter().map(tell).collect()
}

/// The sum that stands for many bytes.
pub fn sum_of(bytes: &[u8]) -> u64 {
    sum(bytes.iter().map(|&byte| byte.into()))
}

/// Each value times its place, counted from 1, added up modulo the largest prime below 2^32.
fn sum(values: impl Iterator<Item = u32>) -> u64 {
    (1..).zip(values).fold(0, |sum, (place, value)| (sum + place * u64::from(value)) % 4_294_967_291)
}

#[cfg(test)]
mod tests {
    use super::*;

    #[test]
    fn lines_say_texts() {
        assert_eq!(text(b"a\\n\\r\\t\\\\\\x00\\xff"), Some(b"a\n\r\t\\\x00\xff".to_vec()));
        assert_eq!(text(b"\\{3|%\\#:1\\n}."), Some(b"%0:1\n%1:1\n%2:1\n.".to_vec()));
        assert_eq!(text(b"\\@9 \\{2|\\#\\x7d}\\{1|\\#}"), Some(b"9}10}9".to_vec()));
        assert_eq!(text(b"\\{0|a}"), Some(vec![]));
        assert_eq!(text(b"{}|#}"), Some(b"{}|#}".to_vec()));
        for bad in [&b"\\"[..], b"\\q", b"\\x", b"\\x0", b"\\xg0", b"\\#", b"\\{1|a", b"\\{|a}", b"\\{1}", b"\\@1"] {
            assert_eq!(text(bad), None, "{bad:?}");
        }
    }

    #[test]
    fn printing_tells_the_canonical_text() {
        let (mut tables, mut work) = (Tables::new(), Work::new());
        assert_eq!(printed(b"", &mut tables, &mut work), "refused 4 at 0");
        assert_eq!(printed(b"%3:1=input\t\"\\5c\"\n", &mut tables, &mut work), "%0:1 = input \"\\\\5c\"\\n");
        assert_eq!(told(&[1; 2_000]), "\u{1}".repeat(2_000));
        assert_eq!(told(&[1; 2_001]), format!("2001 bytes, sum {}", 2_001 * 2_002 / 2));
    }

    #[test]
    fn answers_tell_number_and_place_or_counts_and_sums() {
        let (mut tables, mut work) = (Tables::new(), Work::new());
        assert_eq!(answer(b"", &mut tables, &mut work), "refused 4 at 0");
        assert_eq!(answer(b"\n", &mut tables, &mut work), "0 metadata, 0 pads, 0 cells; rows 0, strings 0, trits 0");
        // the count of cells; kind, width, runs of the first operand; the run's width; the trit
        let rows = 3 + 9_412 * 3 + 9_413 + 9_418 + 14_022;
        assert_eq!(
            answer(b"%0:1 = buf 1\n", &mut tables, &mut work),
            format!("0 metadata, 0 pads, 1 cells; rows {rows}, strings 0, trits 131073")
        );
    }
}
