//! Random netlists of every kind of declaration, written in every way that the format allows, and the same with something changed.

use crate::Random;

/// What is known of metadata declared so far: its number, and whether it is a set, a source or a scope.
#[derive(Clone, Copy, PartialEq, Eq)]
enum Sort {
    Set,
    Source,
    Scope,
    Other,
}

struct Writer<'a> {
    random: &'a mut Random,
    text: Vec<u8>,
    metas: Vec<(usize, Sort)>,
    /// Number and width of every cell of the text, declared already or not.
    cells: Vec<(usize, usize)>,
    names: usize,
}

impl Writer<'_> {
    fn put(&mut self, bytes: impl AsRef<[u8]>) {
        self.text.extend_from_slice(bytes.as_ref());
    }

    /// White space that must stand between two tokens; between brackets a line may end.
    fn gap(&mut self, inside: bool) {
        let lines: &[&str] = &["\n", " \n\t", ";c\n", "\r\n", " ; \u{20ac}\r\n "];
        let blank = if inside && self.random.once_in(6) {
            self.random.pick(lines)
        } else {
            self.random.pick(&[" ", " ", " ", " ", "\t", "  "])
        };
        self.put(blank);
    }

    /// White space that may stand beside a delimiter.
    fn loose(&mut self, inside: bool) {
        if self.random.once_in(2) {
            self.gap(inside);
        }
    }

    fn delimiter(&mut self, byte: u8) {
        self.loose(false);
        self.put([byte]);
        self.loose(false);
    }

    fn number(&mut self, number: usize) {
        let zeros = if self.random.once_in(8) { self.random.below(9) } else { 0 };
        self.put("0".repeat(zeros));
        self.put(number.to_string());
    }

    fn sigil(&mut self, sigil: u8, number: usize) {
        self.put([sigil]);
        self.number(number);
    }

    /// A string of its own; no two are equal.
    fn string(&mut self) {
        let name = self.names;
        self.names += 1;
        self.put("\"");
        for _ in 0..self.random.below(6) {
            let part = self.random.pick(&[
                "a",
                "b ",
                ";",
                "[",
                "\\5c",
                "\\22",
                "\\00",
                "\\ff",
                "\u{e9}",
                "\u{20ac}",
                "\u{1f34e}",
                "\u{80}",
            ]);
            self.put(part);
        }
        self.put(format!("#{name}\""));
    }

    fn decimal(&mut self, number: i64) {
        let minus = number < 0 || number == 0 && self.random.once_in(3);
        self.put(if minus { "#-" } else { "#" });
        self.number(number.unsigned_abs() as usize);
    }

    fn any_decimal(&mut self) {
        let edges = [0, 1, -1, 7, 65_536, 2_147_483_647, -2_147_483_648];
        let number = self.random.pick(&edges);
        self.decimal(number);
    }

    fn pick_meta(&mut self, fits: impl Fn(Sort) -> bool) -> Option<usize> {
        let fitting: Vec<usize> = self.metas.iter().filter(|meta| fits(meta.1)).map(|meta| meta.0).collect();
        if fitting.is_empty() {
            None
        } else {
            Some(self.random.pick(&fitting))
        }
    }

    fn end(&mut self) {
        let end = self.random.pick(&["\n", "\n", "\n", "\r\n", " \n", ";c\n", " ; c\r\n", "\n\n", "\n \t\n\n"]);
        self.put(end);
        if self.random.once_in(10) {
            self.put(" ");
        }
    }

    fn meta(&mut self, number: usize) {
        self.sigil(b'!', number);
        self.delimiter(b'=');
        let sort = match self.random.below(6) {
            0 => self.set(),
            1 => self.source(),
            2 | 3 => self.scope(),
            4 => self.ident(),
            _ => self.attribute(),
        };
        self.metas.push((number, sort));
        self.end();
    }

    fn set(&mut self) -> Sort {
        if self.pick_meta(|sort| sort != Sort::Set).is_none() {
            return self.attribute();
        }
        self.put("{");
        for k in 0..2 + self.random.below(4) {
            if k == 0 {
                self.loose(true);
            } else {
                self.gap(true);
            }
            let member = self.pick_meta(|sort| sort != Sort::Set).expect("there is one");
            self.sigil(b'!', member);
        }
        self.loose(true);
        self.put("}");
        Sort::Set
    }

    fn source(&mut self) -> Sort {
        self.put("source ");
        self.string();
        let (line, column) = (self.random.below(9) as i64, self.random.below(9) as i64);
        let (more, last) = (self.random.below(2) as i64, self.random.below(9) as i64);
        let last = if more == 0 { column + last } else { last };
        for (line, column) in [(line, column), (line + more, last)] {
            self.loose(false);
            self.put("(");
            self.loose(true);
            self.decimal(line);
            self.gap(true);
            self.decimal(column);
            self.loose(true);
            self.put(")");
        }
        Sort::Source
    }

    fn scope(&mut self) -> Sort {
        self.put("scope ");
        if self.random.once_in(3) {
            self.any_decimal();
        } else {
            self.string();
        }
        if self.random.once_in(2) {
            self.option("in", Sort::Scope);
        }
        if self.random.once_in(2) {
            self.option("src", Sort::Source);
        }
        Sort::Scope
    }

    fn option(&mut self, word: &str, wanted: Sort) {
        if let Some(meta) = self.pick_meta(|sort| sort == wanted) {
            self.gap(false);
            self.put(word);
            self.delimiter(b'=');
            self.sigil(b'!', meta);
        }
    }

    fn ident(&mut self) -> Sort {
        if self.pick_meta(|sort| sort == Sort::Scope).is_none() {
            return self.scope();
        }
        self.put("ident ");
        self.string();
        self.option("in", Sort::Scope);
        Sort::Other
    }

    fn attribute(&mut self) -> Sort {
        self.put("attr\t");
        self.string();
        self.gap(false);
        match self.random.below(4) {
            0 => self.any_decimal(),
            1 => self.string(),
            2 => self.put("\"\""),
            _ => {
                let width = self.random.pick(&[1, 2, 7, 255, 256]);
                self.trits(width);
            }
        }
        Sort::Other
    }

    fn trits(&mut self, count: usize) {
        for _ in 0..count {
            let trit = self.random.pick(&["0", "1", "X"]);
            self.put(trit);
        }
    }

    fn pad(&mut self) {
        self.put("&");
        self.string();
        self.put(":");
        let width = self.random.pick(&[1, 2, 8, 255, 256]);
        self.number(width);
        self.delimiter(b'=');
        self.put("io");
        self.end();
    }

    fn cell(&mut self, number: usize, width: usize) {
        self.sigil(b'%', number);
        self.put(":");
        self.number(width);
        self.delimiter(b'=');
        let narrow = 1 + self.random.below(5);
        let (keyword, operands): (&str, Vec<usize>) = match (width, self.random.below(8)) {
            (0, _) => ("output", vec![narrow]),
            (_, 0) => ("input", vec![]),
            (1, 1..=3) => (self.random.pick(&["eq", "ult", "slt"]), vec![narrow, narrow]),
            (2..=256, 1 | 2) => ("adc", vec![width - 1, width - 1, 1]),
            (_, 4) => ("mux", vec![1, width, width]),
            (_, 5) => (self.random.pick(&["buf", "not"]), vec![width]),
            _ => (self.random.pick(&["and", "or", "xor"]), vec![width, width]),
        };
        self.put(keyword);
        if matches!(keyword, "input" | "output") {
            self.gap(false);
            self.string();
        }
        for width in operands {
            self.operand(width);
        }
        if self.random.once_in(3) {
            if let Some(meta) = self.pick_meta(|_| true) {
                self.gap(false);
                self.sigil(b'!', meta);
            }
        }
        self.end();
    }

    fn operand(&mut self, width: usize) {
        if self.random.once_in(3) {
            self.gap(false);
            self.bare(width);
        } else {
            self.loose(false);
            self.put("[");
            self.loose(true);
            self.parts(width);
        }
    }

    /// A single part of this width.
    fn bare(&mut self, width: usize) {
        let wide: Vec<(usize, usize)> = self.cells.iter().copied().filter(|cell| cell.1 >= width).collect();
        if wide.is_empty() || self.random.once_in(4) {
            let trit = self.random.pick(&["0*", "1*", "X*"]);
            self.put(trit);
            self.number(width);
        } else {
            let (index, whole) = self.random.pick(&wide);
            let offset = self.random.below(whole - width + 1);
            self.piece(index, offset, width);
        }
    }

    fn piece(&mut self, index: usize, offset: usize, width: usize) {
        self.sigil(b'%', index);
        if offset > 0 || self.random.once_in(4) {
            self.put("+");
            self.number(offset);
        }
        if width != 1 || self.random.once_in(4) {
            self.put(":");
            self.number(width);
        }
    }

    /// Parts of this width together, up to the closing bracket.
    fn parts(&mut self, width: usize) {
        let mut left = width;
        while left > 0 {
            if self.random.once_in(5) {
                self.nothing();
            }
            left = self.part(left);
            if left > 0 {
                self.gap(true);
            }
        }
        self.loose(true);
        self.put("]");
    }

    /// A part that brings no bits, and a gap.
    fn nothing(&mut self) {
        let (index, width) = self.random.pick(&self.cells.clone());
        let offset = self.random.below(width + 1);
        let part = match self.random.below(4) {
            0 => "1X*0".to_string(),
            1 => format!("%{index}:0*{}", self.random.below(3)),
            2 => format!("%{index}+{offset}:0"),
            _ => format!("%{index}+{offset}:{}*0", width - offset),
        };
        self.put(part);
        self.gap(true);
    }

    /// A part at most `left` wide; how much is left behind it.
    fn part(&mut self, left: usize) -> usize {
        let usable: Vec<(usize, usize)> = self.cells.iter().copied().filter(|cell| cell.1 > 0).collect();
        if usable.is_empty() || self.random.once_in(4) {
            let trits = 1 + self.random.below(left.min(6));
            self.trits(trits);
            return left - trits * self.times(left / trits);
        }
        let (index, whole) = self.random.pick(&usable);
        let width = 1 + self.random.below(whole.min(left));
        // often the bits that the place in the operand asks for, so that neighbours join
        let falling = left <= whole && self.random.once_in(2);
        let offset = if falling { left - width } else { self.random.below(whole - width + 1) };
        self.piece(index, offset, width);
        left - width * self.times(left / width)
    }

    /// `*count`, now and then; the count.
    fn times(&mut self, most: usize) -> usize {
        if !self.random.once_in(4) {
            return 1;
        }
        let times = 1 + self.random.below(most.min(3));
        self.put("*");
        self.number(times);
        times
    }
}

/// Different numbers, small ones and large ones.
fn numbers(random: &mut Random, count: usize) -> Vec<usize> {
    let mut numbers: Vec<usize> = Vec::new();
    while numbers.len() < count {
        let number = if random.once_in(4) { random.below(65_536) } else { random.below(2 * count) };
        if !numbers.contains(&number) {
            numbers.push(number);
        }
    }
    numbers
}

/// A netlist that the reader accepts.
pub fn any_netlist(random: &mut Random) -> Vec<u8> {
    let counts = [random.below(10), random.below(4), random.below(12)];
    let metas = numbers(random, counts[0]);
    let cells: Vec<(usize, usize)> = numbers(random, counts[2])
        .into_iter()
        .map(|number| (number, random.pick(&[0, 0, 1, 1, 1, 2, 3, 4, 5, 8, 17, 256])))
        .collect();
    let mut writer = Writer { random, text: Vec::new(), metas: Vec::new(), cells: cells.clone(), names: 0 };
    if writer.random.once_in(4) {
        writer.end();
    }
    let mut done = [0; 3];
    while done != counts {
        let sort = writer.random.below(3);
        if done[sort] == counts[sort] {
            continue;
        }
        match sort {
            0 => writer.meta(metas[done[0]]),
            1 => writer.pad(),
            _ => writer.cell(cells[done[2]].0, cells[done[2]].1),
        }
        done[sort] += 1;
    }
    let mut text = writer.text;
    if text.last() != Some(&b'\n') {
        text.push(b'\n');
    }
    text
}

/// The text with one thing changed, so that most rules are broken by some change.
pub fn changed(text: &[u8], random: &mut Random) -> Vec<u8> {
    let lines: Vec<&[u8]> = text.split_inclusive(|byte| *byte == b'\n').collect();
    let mut text = text.to_vec();
    let at = random.below(text.len());
    match random.below(9) {
        // a digit, so that another cell, piece, width or row is meant
        0 | 1 => {
            let digits: Vec<usize> = (0..text.len()).filter(|at| text[*at].is_ascii_digit()).collect();
            if !digits.is_empty() {
                text[random.pick(&digits)] = b'0' + random.below(10) as u8;
            }
        }
        // a line left out, doubled, or moved
        2 => return concat(&lines, |k| usize::from(k != at % lines.len())),
        3 => return concat(&lines, |k| 1 + usize::from(k == at % lines.len())),
        4 => {
            let mut lines = lines;
            let other = random.below(lines.len());
            let here = at % lines.len();
            lines.swap(here, other);
            return lines.concat();
        }
        5 => text[at] = random.pick(b" \n\r\t;\"\\#%&!+:*_-=,[](){}0129Xxaz"),
        6 => drop(text.remove(at)),
        7 => text.insert(at, random.pick(b" \n;\"\\#%&!+:*=[]01X9a")),
        // a string made empty, or a number made longer
        _ => {
            let quotes: Vec<usize> = (0..text.len()).filter(|at| text[*at] == b'"').collect();
            if quotes.len() >= 2 && random.once_in(2) {
                let open = 2 * random.below(quotes.len() / 2);
                text.drain(quotes[open] + 1..quotes[open + 1]);
            } else {
                text.insert(at, b'0' + random.below(10) as u8);
            }
        }
    }
    text
}

fn concat(lines: &[&[u8]], times: impl Fn(usize) -> usize) -> Vec<u8> {
    lines.iter().enumerate().flat_map(|(k, line)| line.repeat(times(k))).collect()
}

#[cfg(test)]
mod tests {
    use super::*;
    use reference::reading::canonical;

    #[test]
    fn accepted_and_the_same_when_printed() {
        let mut random = Random::new(1);
        for _ in 0..3_000 {
            let text = any_netlist(&mut random);
            let shown = || String::from_utf8_lossy(&text).into_owned();
            let tables = reference::read(&text).unwrap_or_else(|refusal| panic!("{refusal:?}: {}", shown()));
            assert!(reference::read(canonical(&tables).as_bytes()) == Ok(tables), "printed and read again: {}", shown());
        }
    }

    #[test]
    fn changes_reach_every_ground() {
        let mut random = Random::new(2);
        let mut told = [0; 15];
        for _ in 0..20_000 {
            let text = any_netlist(&mut random);
            let mut text = changed(&text, &mut random);
            if !text.is_empty() && random.once_in(3) {
                text = changed(&text, &mut random);
            }
            told[reference::read(&text).map_or_else(|refusal| refusal.number as usize, |_| 0)] += 1;
        }
        println!("answers by number: {told:?}");
        for number in [0, 3, 4, 5, 6, 7, 8, 9, 10, 11, 12, 14] {
            assert!(told[number] >= 20, "{number} is told {} times", told[number]);
        }
    }
}
