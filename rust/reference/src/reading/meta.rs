//! Metadata declarations: sets, sources, scopes, idents and attributes.

use super::names::Name;
use super::operands::write_trits;
use super::tables::*;
use super::Reading;
use crate::{refusal, Kind, Refusal};

/// Kinds of metadata rows, as the layout numbers them.
const SET: u32 = 1;
const SOURCE: u32 = 2;
const NAMED_SCOPE: u32 = 3;
const INDEXED_SCOPE: u32 = 4;
const IDENT: u32 = 5;
const BITS: u32 = 6;
const INTEGER: u32 = 7;
const STRING: u32 = 8;

/// What a metadata declaration says.
#[derive(Default)]
struct Meta {
    kind: u32,
    /// A name, or a source's file.
    name: Option<Name>,
    value: Name,
    members: usize,
    /// A constant's place and length.
    constant: Name,
    parent: u32,
    source: u32,
    number: i32,
    /// First line and column, last line and column.
    range: [i32; 4],
    /// The first reference that is missing, later or of the wrong kind.
    astray: Option<usize>,
}

impl Reading<'_> {
    /// `!n = ..`, from the `=` on.
    pub(super) fn meta(&mut self, place: usize, index: u32) -> Result<(), Refusal> {
        self.delimiter(b'=')?;
        let token = self.token()?;
        let meta = match token.kind {
            Kind::Delimiter(b'{') => self.set()?,
            Kind::Word => match self.written(token) {
                b"source" => self.source()?,
                b"scope" => self.scope()?,
                b"ident" => self.ident()?,
                b"attr" => self.attribute()?,
                _ => return Err(refusal(8, token.place)),
            },
            _ => return Err(refusal(7, token.place)),
        };
        self.line_end()?;
        self.meta_rules(place, index, &meta)?;
        self.note_meta(index, &meta);
        Ok(())
    }

    /// The members of a set up to its `}`. They are written at once: if the declaration is refused, all is cleared.
    fn set(&mut self) -> Result<Meta, Refusal> {
        let mut meta = Meta { kind: SET, ..Meta::default() };
        loop {
            let token = self.inside()?;
            match token.kind {
                Kind::Delimiter(b'}') => return Ok(meta),
                Kind::Meta(index) => {
                    let row = self.reference(token.place, index, |kind| kind != SET, &mut meta.astray);
                    let member = self.members + meta.members;
                    if member < MOST_MEMBERS {
                        self.rows[member_word(member)] = row;
                    }
                    meta.members += 1;
                }
                _ => return Err(refusal(7, token.place)),
            }
        }
    }

    fn source(&mut self) -> Result<Meta, Refusal> {
        let name = Some(self.string()?);
        let (first_line, first_column) = self.position()?;
        let (last_line, last_column) = self.position()?;
        Ok(Meta { kind: SOURCE, name, range: [first_line, first_column, last_line, last_column], ..Meta::default() })
    }

    /// `(#line #column)`.
    fn position(&mut self) -> Result<(i32, i32), Refusal> {
        self.delimiter(b'(')?;
        let (line, column) = (self.decimal_inside()?, self.decimal_inside()?);
        let token = self.inside()?;
        if matches!(token.kind, Kind::Delimiter(b')')) {
            Ok((line, column))
        } else {
            Err(refusal(7, token.place))
        }
    }

    fn decimal_inside(&mut self) -> Result<i32, Refusal> {
        let token = self.inside()?;
        match token.kind {
            Kind::Decimal(number) => Ok(number),
            _ => Err(refusal(7, token.place)),
        }
    }

    fn scope(&mut self) -> Result<Meta, Refusal> {
        let token = self.token()?;
        let mut meta = match token.kind {
            Kind::Text { size } => {
                let name = Name { place: token.place + 1, size: size as usize };
                Meta { kind: NAMED_SCOPE, name: Some(name), ..Meta::default() }
            }
            Kind::Decimal(number) => Meta { kind: INDEXED_SCOPE, number, ..Meta::default() },
            _ => return Err(refusal(7, token.place)),
        };
        if self.option(b"in") {
            meta.parent = self.option_reference(is_scope, &mut meta.astray)?;
        }
        if self.option(b"src") {
            meta.source = self.option_reference(|kind| kind == SOURCE, &mut meta.astray)?;
        }
        Ok(meta)
    }

    fn ident(&mut self) -> Result<Meta, Refusal> {
        let name = Some(self.string()?);
        let mut meta = Meta { kind: IDENT, name, ..Meta::default() };
        let token = self.token()?;
        if self.written(token) != b"in" {
            return Err(refusal(7, token.place));
        }
        meta.parent = self.option_reference(is_scope, &mut meta.astray)?;
        Ok(meta)
    }

    fn attribute(&mut self) -> Result<Meta, Refusal> {
        let meta = Meta { name: Some(self.string()?), ..Meta::default() };
        let token = self.token()?;
        match token.kind {
            Kind::Constant { trits, times: None } => {
                let constant = Name { place: token.place, size: trits as usize };
                Ok(Meta { kind: BITS, constant, ..meta })
            }
            Kind::Decimal(number) => Ok(Meta { kind: INTEGER, number, ..meta }),
            Kind::Text { size } => {
                let value = Name { place: token.place + 1, size: size as usize };
                Ok(Meta { kind: STRING, value, ..meta })
            }
            _ => Err(refusal(7, token.place)),
        }
    }

    /// Whether this option's word comes next; if so it is passed.
    fn option(&mut self, word: &[u8]) -> bool {
        let mut ahead = self.tokens;
        match ahead.next_token() {
            Ok(Some(token)) if self.written(token) == word => {
                self.tokens = ahead;
                true
            }
            _ => false,
        }
    }

    /// `=!m` of an option.
    fn option_reference(&mut self, fits: fn(u32) -> bool, astray: &mut Option<usize>) -> Result<u32, Refusal> {
        self.delimiter(b'=')?;
        let token = self.token()?;
        match token.kind {
            Kind::Meta(index) => Ok(self.reference(token.place, index, fits, astray)),
            _ => Err(refusal(7, token.place)),
        }
    }

    /// The row plus one of the metadata named, if it is declared and its kind fits; else the place is noted unless one is already.
    pub(super) fn reference(&self, place: usize, index: u32, fits: fn(u32) -> bool, astray: &mut Option<usize>) -> u32 {
        match self.work.metas.row(index) {
            Some(row) if fits(self.rows[meta_words(row)][0]) => row as u32 + 1,
            _ => {
                astray.get_or_insert(place);
                0
            }
        }
    }

    /// Rules 9 to 13 for metadata.
    fn meta_rules(&self, place: usize, index: u32, meta: &Meta) -> Result<(), Refusal> {
        if self.work.metas.row(index).is_some() {
            return Err(refusal(9, place));
        }
        if let Some(astray) = meta.astray {
            return Err(refusal(10, astray));
        }
        let unnamed = meta.name.map_or(false, |name| name.size == 0);
        if unnamed || !range_is_good(meta.range) || meta.kind == SET && meta.members < 2 {
            return Err(refusal(11, place));
        }
        if meta.constant.size > 256 {
            return Err(refusal(12, place));
        }
        let fits = self.work.metas.count() < MOST_METAS
            && self.members + meta.members <= MOST_MEMBERS
            && self.strings_fit(&[meta.name.unwrap_or_default(), meta.value]);
        if fits {
            Ok(())
        } else {
            Err(refusal(13, place))
        }
    }

    /// Writes the row; for a string it holds the place in the text until the end.
    fn note_meta(&mut self, index: u32, meta: &Meta) {
        let name = meta.name.unwrap_or_default();
        let [first_line, first_column, last_line, last_column] = meta.range;
        self.rows[meta_words(self.work.metas.count())].copy_from_slice(&[
            meta.kind,
            name.place as u32,
            name.size as u32,
            meta.value.place as u32,
            meta.value.size as u32,
            self.members as u32,
            meta.members as u32,
            self.meta_trits as u32,
            meta.constant.size as u32,
            meta.parent,
            meta.source,
            meta.number as u32,
            first_line as u32,
            first_column as u32,
            last_line as u32,
            last_column as u32,
        ]);
        let constant = &self.tokens.text[meta.constant.place..meta.constant.place + meta.constant.size];
        write_trits(constant, &mut self.trits[self.meta_trits..self.meta_trits + constant.len()]);
        self.meta_trits += constant.len();
        self.members += meta.members;
        self.string_bytes += name.size + meta.value.size;
        self.work.metas.declare(index);
    }
}

fn is_scope(kind: u32) -> bool {
    kind == NAMED_SCOPE || kind == INDEXED_SCOPE
}

/// No negative number, and no end before the start; all zero, as of other metadata, is good.
fn range_is_good(range: [i32; 4]) -> bool {
    let [first_line, first_column, last_line, last_column] = range;
    range.iter().all(|&number| number >= 0) && (first_line, first_column) <= (last_line, last_column)
}
