//! The text layer and the reader in plain Rust, to compare the proved library with.
//!
//! It is written from documents 01 and 001, `docs/DECISIONS.md` and `docs/LAYOUT.md`, not from the proved crates or their definitions,
//! so that a misreading of the documents would have to be made twice to stay unseen. The decided points are common to both. It uses no
//! `unsafe`.
//!
//! Here are the whole text (refusals 2 to 4) and its tokens (5 and 6); `reading` is the reader above them (1 to 14), and `logic`
//! evaluates and translates what it has read, and runs load lists (15, 20 to 24).

#![forbid(unsafe_code)]

pub mod cases;
#[cfg(test)]
mod examples;
pub mod lines;
pub mod logic;
pub mod reading;

pub use logic::{evaluate_into, run_into, translate_into};
pub use reading::{check, print_by_buffer, print_into, read, read_into, read_into_lent, Tables, Work};

/// The longest text, in bytes.
pub const LONGEST: usize = 65_536;

/// The largest index, offset, width and count.
pub const LARGEST: u32 = 65_535;

/// Why a text is refused: the number of document 01 and the place, a byte of the text counted from 0.
#[derive(Clone, Copy, Debug, PartialEq, Eq)]
pub struct Refusal {
    pub number: u32,
    pub place: u64,
}

fn refusal(number: u32, place: usize) -> Refusal {
    Refusal { number, place: place as u64 }
}

/// The text as a whole: refusal 2, 3 or 4.
///
/// The standard library judges UTF-8 and finds a CR, several bytes at a time; the CRs are looked at one by one only if there are any.
pub fn whole(text: &[u8]) -> Result<(), Refusal> {
    if text.len() > LONGEST {
        return Err(refusal(2, LONGEST));
    }
    let sound = match std::str::from_utf8(text) {
        Ok(_) => text.len(),
        Err(error) => error.valid_up_to(),
    };
    if text[..sound].contains(&b'\r') {
        let lone = |place: &usize| text[*place] == b'\r' && text.get(place + 1) != Some(&b'\n');
        if let Some(place) = (0..sound).find(lone) {
            return Err(refusal(3, place));
        }
    }
    if sound < text.len() {
        return Err(refusal(3, sound));
    }
    match text.last() {
        Some(b'\n') => Ok(()),
        _ => Err(refusal(4, text.len())),
    }
}

/// The same answers as `whole` in one pass, byte by byte, as a reader without the standard library's help would do it.
pub fn whole_by_bytes(text: &[u8]) -> Result<(), Refusal> {
    if text.len() > LONGEST {
        return Err(refusal(2, LONGEST));
    }
    let mut at = 0;
    while let Some(&first) = text.get(at) {
        let after = |k: usize| text.get(at + k).copied().unwrap_or(0);
        let next = |k: usize| after(k) & 0xc0 == 0x80;
        at += match first {
            b'\r' if after(1) != b'\n' => return Err(refusal(3, at)),
            0x00..=0x7f => 1,
            0xc2..=0xdf if next(1) => 2,
            0xe0 if after(1) >= 0xa0 && next(1) && next(2) => 3,
            0xed if after(1) < 0xa0 && next(1) && next(2) => 3,
            0xe1..=0xec | 0xee..=0xef if next(1) && next(2) => 3,
            0xf0 if after(1) >= 0x90 && next(1) && next(2) && next(3) => 4,
            0xf4 if after(1) < 0x90 && next(1) && next(2) && next(3) => 4,
            0xf1..=0xf3 if next(1) && next(2) && next(3) => 4,
            _ => return Err(refusal(3, at)),
        };
    }
    match text.last() {
        Some(b'\n') => Ok(()),
        _ => Err(refusal(4, text.len())),
    }
}

/// What a token is, with its numbers.
#[derive(Clone, Copy, Debug, PartialEq, Eq)]
pub enum Kind {
    /// LF, CR LF, or a comment with its LF.
    LineEnd,
    /// One of `[ ] ( ) { } = ,`.
    Delimiter(u8),
    /// Letters a to z.
    Word,
    /// `"bytes"`, with the number of bytes it denotes.
    Text { size: u32 },
    /// `#digits` or `#-digits`.
    Decimal(i32),
    /// `0 1 X` in a row, once or repeated.
    Constant { trits: u32, times: Option<u32> },
    /// `!index`.
    Meta(u32),
    /// `&"name"` with the number of bytes the name denotes, or `&_` without; and its offset or width.
    Io { name: Option<u32>, offset: Option<u32>, width: Option<u32> },
    /// `%index+offset:width*times`.
    Cell { index: u32, offset: Option<u32>, width: Option<u32>, times: Option<u32> },
    /// `%index:_`.
    Placeholder { index: u32 },
}

/// A token and where it stands: its first byte and the byte after its last.
#[derive(Clone, Copy, Debug, PartialEq, Eq)]
pub struct Token {
    pub place: usize,
    pub end: usize,
    pub kind: Kind,
}

/// Reads the tokens of a text, one after the other, line ends included.
#[derive(Clone, Copy, Debug)]
pub struct Reader<'a> {
    text: &'a [u8],
    at: usize,
    /// The last token needs white space or a delimiter after it.
    tight: bool,
}

/// Why a token is refused, apart from its place.
enum Fault {
    Malformed,
    TooLarge,
}

type Made = Result<Kind, Fault>;

impl<'a> Reader<'a> {
    pub fn new(text: &'a [u8]) -> Reader<'a> {
        Reader { text, at: 0, tight: false }
    }

    /// The next byte; 0 stands for the end, since no token goes on with that byte.
    fn peek(&self) -> u8 {
        self.text.get(self.at).copied().unwrap_or(0)
    }

    fn take(&mut self, byte: u8) -> bool {
        let there = self.peek() == byte;
        self.at += there as usize;
        there
    }

    fn skip(&mut self, member: impl Fn(u8) -> bool) {
        while member(self.peek()) {
            self.at += 1;
        }
    }

    /// The next token, `None` at the text's end, or refusal 5 or 6.
    #[inline]
    pub fn next_token(&mut self) -> Result<Option<Token>, Refusal> {
        let from = self.at;
        self.skip(|byte| matches!(byte, b' ' | b'\t'));
        let place = self.at;
        let first = match self.text.get(place) {
            Some(&byte) => byte,
            None => return Ok(None),
        };
        self.at += 1;
        if self.tight && place == from && !separates(first) {
            return Err(refusal(5, place));
        }
        let made = match first {
            b'\n' => Ok(Kind::LineEnd),
            b'\r' => self.carriage_return(),
            b';' => self.comment(),
            b'[' | b']' | b'(' | b')' | b'{' | b'}' | b'=' | b',' => Ok(Kind::Delimiter(first)),
            b'a'..=b'z' => self.word(),
            b'0' | b'1' | b'X' => self.constant(),
            b'%' => self.cell(),
            b'"' => self.string().map(|size| Kind::Text { size }),
            b'!' => self.meta(),
            b'#' => self.decimal(),
            b'&' => self.io(),
            _ => Err(Fault::Malformed),
        };
        match made {
            Ok(kind) => {
                self.tight = !matches!(kind, Kind::LineEnd | Kind::Delimiter(_));
                Ok(Some(Token { place, end: self.at, kind }))
            }
            Err(Fault::Malformed) => Err(refusal(5, place)),
            Err(Fault::TooLarge) => Err(refusal(6, place)),
        }
    }

    fn carriage_return(&mut self) -> Made {
        if self.take(b'\n') {
            Ok(Kind::LineEnd)
        } else {
            Err(Fault::Malformed)
        }
    }

    fn comment(&mut self) -> Made {
        let rest = &self.text[self.at..];
        let line = rest.iter().position(|&byte| byte == b'\n');
        self.at += line.map_or(rest.len(), |size| size + 1);
        Ok(Kind::LineEnd)
    }

    fn word(&mut self) -> Made {
        self.skip(|byte| byte.is_ascii_lowercase());
        Ok(Kind::Word)
    }

    /// The bytes up to the closing quote, and how many they denote.
    fn string(&mut self) -> Result<u32, Fault> {
        let mut size = 0;
        loop {
            match self.peek() {
                b'"' => {
                    self.at += 1;
                    return Ok(size);
                }
                b'\\' => {
                    let hex = |byte: &u8| matches!(byte, b'0'..=b'9' | b'a'..=b'f');
                    match self.text.get(self.at + 1..self.at + 3) {
                        Some(pair) if pair.iter().all(hex) => self.at += 3,
                        _ => return Err(Fault::Malformed),
                    }
                }
                0x00..=0x1f | 0x7f => return Err(Fault::Malformed),
                _ => self.at += 1,
            }
            size += 1;
        }
    }

    /// One digit or more as a number, which stops growing at `past`.
    #[inline]
    fn digits(&mut self, past: u64) -> Result<u64, Fault> {
        let from = self.at;
        let mut value = 0;
        while self.peek().is_ascii_digit() {
            value = past.min(value * 10 + u64::from(self.peek() - b'0'));
            self.at += 1;
        }
        if self.at == from {
            return Err(Fault::Malformed);
        }
        Ok(value)
    }

    /// An index, offset, width or count; one too large is told when the token is complete.
    fn number(&mut self) -> Result<u32, Fault> {
        self.digits(u64::from(LARGEST) + 1).map(|value| value as u32)
    }

    /// A part that its mark begins, if it does.
    fn part(&mut self, mark: u8) -> Result<Option<u32>, Fault> {
        if self.take(mark) {
            self.number().map(Some)
        } else {
            Ok(None)
        }
    }

    fn constant(&mut self) -> Made {
        let from = self.at - 1;
        self.skip(|byte| matches!(byte, b'0' | b'1' | b'X'));
        let trits = (self.at - from) as u32;
        let times = self.part(b'*')?;
        fitting(Kind::Constant { trits, times }, times.unwrap_or(0))
    }

    #[inline]
    fn cell(&mut self) -> Made {
        let index = self.number()?;
        let offset = self.part(b'+')?;
        let mut width = None;
        if self.take(b':') {
            if offset.is_none() && self.take(b'_') {
                return fitting(Kind::Placeholder { index }, index);
            }
            width = Some(self.number()?);
        }
        let times = self.part(b'*')?;
        fitting(
            Kind::Cell { index, offset, width, times },
            index.max(offset.unwrap_or(0)).max(width.unwrap_or(0)).max(times.unwrap_or(0)),
        )
    }

    fn meta(&mut self) -> Made {
        let index = self.number()?;
        fitting(Kind::Meta(index), index)
    }

    fn decimal(&mut self) -> Made {
        let negative = self.take(b'-');
        let size = self.digits(1 << 32)? as i64;
        let value = if negative { -size } else { size };
        i32::try_from(value).map(Kind::Decimal).map_err(|_| Fault::TooLarge)
    }

    #[inline]
    fn io(&mut self) -> Made {
        let (mut offset, mut name) = (None, None);
        if self.take(b'"') {
            name = Some(self.string()?);
            offset = self.part(b'+')?;
        } else if !self.take(b'_') {
            return Err(Fault::Malformed);
        }
        let width = match offset {
            Some(_) => None,
            None => self.part(b':')?,
        };
        fitting(Kind::Io { name, offset, width }, offset.or(width).unwrap_or(0))
    }
}

/// Line ends and delimiters need no white space beside them.
fn separates(byte: u8) -> bool {
    matches!(byte, b'\n' | b'\r' | b';' | b'[' | b']' | b'(' | b')' | b'{' | b'}' | b'=' | b',')
}

/// A complete token, `most` being its largest number.
#[inline]
fn fitting(kind: Kind, most: u32) -> Made {
    if most > LARGEST {
        Err(Fault::TooLarge)
    } else {
        Ok(kind)
    }
}

/// How many tokens a text has, each line end being one; or the first refusal, 2 to 6.
pub fn tokens(text: &[u8]) -> Result<u64, Refusal> {
    whole(text)?;
    let mut reader = Reader::new(text);
    let mut count = 0;
    while reader.next_token()?.is_some() {
        count += 1;
    }
    Ok(count)
}
