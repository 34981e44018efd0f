//! The canonical text of the netlist in lent tables, written into lent room.

use super::checking::check;
use super::tables::*;
use crate::{refusal, Refusal};

const KEYWORDS: [&str; 12] = ["input", "output", "buf", "not", "and", "or", "xor", "mux", "adc", "eq", "ult", "slt"];

/// Prints tables into a room: 1, 15, then 24 where the room is shorter than the text, with the room as it was. The text is counted
/// first, then written, and nothing is allocated for it.
pub fn print_into(rows: &[u32], strings: &[u8], trits: &[u8], room: &mut [u8]) -> Result<usize, Refusal> {
    check(rows, strings, trits)?;
    let tables = Shown::new(rows, strings, trits);
    let mut count = Count(0);
    tables.print(&mut count);
    let room = room.get_mut(..count.0).ok_or_else(|| refusal(24, 0))?;
    tables.print(&mut Room { room, at: 0 });
    Ok(count.0)
}

/// The same through a buffer of its own, which is kept from call to call: the text is written once, and copied if there is room.
pub fn print_by_buffer(
    rows: &[u32],
    strings: &[u8],
    trits: &[u8],
    room: &mut [u8],
    buffer: &mut Vec<u8>,
) -> Result<usize, Refusal> {
    check(rows, strings, trits)?;
    buffer.clear();
    Shown::new(rows, strings, trits).print(buffer);
    room.get_mut(..buffer.len()).ok_or_else(|| refusal(24, 0))?.copy_from_slice(buffer);
    Ok(buffer.len())
}

/// What text is written to.
trait Out {
    fn put(&mut self, bytes: &[u8]);
    fn byte(&mut self, byte: u8);
}

struct Count(usize);

impl Out for Count {
    fn put(&mut self, bytes: &[u8]) {
        self.0 += bytes.len();
    }

    fn byte(&mut self, _: u8) {
        self.0 += 1;
    }
}

/// Room that is known to be long enough.
struct Room<'a> {
    room: &'a mut [u8],
    at: usize,
}

impl Out for Room<'_> {
    fn put(&mut self, bytes: &[u8]) {
        self.room[self.at..self.at + bytes.len()].copy_from_slice(bytes);
        self.at += bytes.len();
    }

    fn byte(&mut self, byte: u8) {
        self.room[self.at] = byte;
        self.at += 1;
    }
}

impl Out for Vec<u8> {
    fn put(&mut self, bytes: &[u8]) {
        self.extend_from_slice(bytes);
    }

    fn byte(&mut self, byte: u8) {
        self.push(byte);
    }
}

/// Good tables, and the printed number of each cell: earlier cells take as many numbers as they are wide, and one at least.
struct Shown<'a> {
    rows: &'a [u32],
    strings: &'a [u8],
    trits: &'a [u8],
    numbers: [u32; MOST_CELLS],
}

impl<'a> Shown<'a> {
    fn new(rows: &'a [u32], strings: &'a [u8], trits: &'a [u8]) -> Shown<'a> {
        let mut numbers = [0; MOST_CELLS];
        let mut next = 0;
        for (row, number) in numbers[..rows[2] as usize].iter_mut().enumerate() {
            *number = next;
            next += rows[cell_words(row)][1].max(1);
        }
        Shown { rows, strings, trits, numbers }
    }

    fn print(&self, out: &mut impl Out) {
        let [metas, ios, cells] = [0, 1, 2].map(|word| self.rows[word] as usize);
        for row in 0..metas {
            self.meta(row, out);
        }
        for row in 0..ios {
            self.io(row, out);
        }
        for row in 0..cells {
            self.cell(row, out);
        }
        if metas + ios + cells == 0 {
            out.byte(b'\n');
        }
    }

    fn meta(&self, row: usize, out: &mut impl Out) {
        let words = &self.rows[meta_words(row)];
        reference(b"!", row as u32 + 1, out);
        out.put(b" = ");
        match words[0] {
            1 => self.set(words, out),
            2 => self.source(words, out),
            3 => {
                out.put(b"scope ");
                self.string(&words[1..3], out);
            }
            4 => {
                out.put(b"scope ");
                integer(words[11], out);
            }
            5 => {
                out.put(b"ident ");
                self.string(&words[1..3], out);
            }
            _ => self.attribute(words, out),
        }
        reference(b" in=!", words[9], out);
        reference(b" src=!", words[10], out);
        out.byte(b'\n');
    }

    fn set(&self, words: &[u32], out: &mut impl Out) {
        let members = &self.rows[member_word(words[5] as usize)..][..words[6] as usize];
        let mut before: &[u8] = b"{!";
        for &member in members {
            reference(before, member, out);
            before = b" !";
        }
        out.byte(b'}');
    }

    fn source(&self, words: &[u32], out: &mut impl Out) {
        out.put(b"source ");
        self.string(&words[1..3], out);
        for point in words[12..16].chunks_exact(2) {
            out.put(b" (");
            integer(point[0], out);
            out.byte(b' ');
            integer(point[1], out);
            out.byte(b')');
        }
    }

    fn attribute(&self, words: &[u32], out: &mut impl Out) {
        out.put(b"attr ");
        self.string(&words[1..3], out);
        out.byte(b' ');
        match words[0] {
            6 => self.constant(words[7] as usize, words[8], out),
            7 => integer(words[11], out),
            _ => self.string(&words[3..5], out),
        }
    }

    fn io(&self, row: usize, out: &mut impl Out) {
        let words = &self.rows[io_words(row)];
        out.byte(b'&');
        self.string(&words[..2], out);
        out.byte(b':');
        number(words[2], out);
        out.put(b" = io\n");
    }

    fn cell(&self, row: usize, out: &mut impl Out) {
        let words = &self.rows[cell_words(row)];
        out.byte(b'%');
        number(self.numbers[row], out);
        out.byte(b':');
        number(words[1], out);
        out.put(b" = ");
        out.put(KEYWORDS[words[0] as usize - 1].as_bytes());
        if words[3] > 0 {
            out.byte(b' ');
            self.string(&words[2..4], out);
        }
        let mut first = words[5] as usize;
        for &count in &words[6..9] {
            let next = first + count as usize;
            self.operand(&self.rows[run_words(first).start..run_words(next).start], out);
            first = next;
        }
        reference(b" !", words[4], out);
        out.byte(b'\n');
    }

    /// The runs of an operand: one stands bare, more in `[ ]`, and none is no operand.
    fn operand(&self, runs: &[u32], out: &mut impl Out) {
        let bare = runs.len() == 3;
        for (index, run) in runs.chunks_exact(3).enumerate() {
            out.put(if index == 0 && !bare { b" [" } else { b" " });
            self.run(run, out);
        }
        if runs.len() > 3 {
            out.byte(b']');
        }
    }

    fn run(&self, run: &[u32], out: &mut impl Out) {
        let (what, at, width) = (run[0] as usize, run[1], run[2]);
        if what == 0 {
            return self.constant(RUN_TRITS_AT + at as usize, width, out);
        }
        out.byte(b'%');
        number(self.numbers[what - 1], out);
        if width != self.rows[cell_words(what - 1)][1] {
            out.byte(b'+');
            number(at, out);
        }
        if width != 1 {
            out.byte(b':');
            number(width, out);
        }
    }

    fn constant(&self, first: usize, width: u32, out: &mut impl Out) {
        for &trit in &self.trits[first..first + width as usize] {
            out.byte(b"01X"[usize::from(trit)]);
        }
    }

    /// A string whose start and size these two words are; raw bytes are put together.
    fn string(&self, words: &[u32], out: &mut impl Out) {
        let mut bytes = &self.strings[words[0] as usize..][..words[1] as usize];
        out.byte(b'"');
        while let Some(raw) = bytes.iter().position(|byte| !is_raw(*byte)) {
            out.put(&bytes[..raw]);
            let byte = bytes[raw];
            out.put(&[b'\\', digit(byte >> 4), digit(byte & 15)]);
            bytes = &bytes[raw + 1..];
        }
        out.put(bytes);
        out.byte(b'"');
    }
}

fn is_raw(byte: u8) -> bool {
    (0x20..=0x7e).contains(&byte) && byte != b'"' && byte != b'\\'
}

fn digit(value: u8) -> u8 {
    b"0123456789abcdef"[usize::from(value)]
}

/// A reference to a row, which is held as the row plus one; 0 is none.
fn reference(before: &[u8], row: u32, out: &mut impl Out) {
    if row > 0 {
        out.put(before);
        number(row - 1, out);
    }
}

/// A `#` number of 32 bits.
fn integer(word: u32, out: &mut impl Out) {
    out.byte(b'#');
    let value = word as i32;
    if value < 0 {
        out.byte(b'-');
    }
    number(value.unsigned_abs(), out);
}

fn number(mut value: u32, out: &mut impl Out) {
    let mut digits = [0; 10];
    let mut first = digits.len();
    loop {
        first -= 1;
        digits[first] = b'0' + (value % 10) as u8;
        value /= 10;
        if value == 0 {
            return out.put(&digits[first..]);
        }
    }
}
