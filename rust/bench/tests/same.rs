//! The proved library and the plain one give the same answers: on good texts, damaged ones and random ones.
//!
//! The random texts come from one seed, which is printed. `GRACKLEIVY_SEED=<number>` tries another one.

#![forbid(unsafe_code)]

use bench::{netlist, Random};
use reference::LONGEST;

/// Compares the two on one text after the other and counts the texts.
struct Compared {
    name: &'static str,
    texts: u64,
    taken: u64,
}

impl Compared {
    fn new(name: &'static str) -> Compared {
        Compared { name, texts: 0, taken: 0 }
    }

    fn text(&mut self, text: &[u8]) {
        let whole = grackleivy::whole(text).map_err(|refusal| (refusal.number, refusal.place));
        let plain = reference::whole(text).map_err(|refusal| (refusal.number, refusal.place));
        let by_bytes = reference::whole_by_bytes(text).map_err(|refusal| (refusal.number, refusal.place));
        assert_eq!(whole, plain, "{}: whole, library and reference differ on {}", self.name, shown(text));
        assert_eq!(plain, by_bytes, "{}: the two references differ on {}", self.name, shown(text));
        let tokens = grackleivy::tokens(text).map_err(|refusal| (refusal.number, refusal.place));
        let plain = reference::tokens(text).map_err(|refusal| (refusal.number, refusal.place));
        assert_eq!(tokens, plain, "{}: tokens, library and reference differ on {}", self.name, shown(text));
        self.texts += 1;
        self.taken += u64::from(tokens.is_ok());
    }

    /// The text alone, and ended by LF.
    fn both(&mut self, text: &[u8]) {
        self.text(text);
        self.text(&[text, b"\n"].concat());
    }

    fn finish(self, least: u64) {
        println!("{}: {} texts, {} of them taken, no difference", self.name, self.texts, self.taken);
        assert!(self.texts >= least, "{}: {} texts are fewer than {least}", self.name, self.texts);
    }
}

fn shown(text: &[u8]) -> String {
    let ends: String = text.iter().take(400).flat_map(|&byte| std::ascii::escape_default(byte)).map(char::from).collect();
    format!("{} bytes: b'{ends}'", text.len())
}

fn seeded(name: &str) -> Random {
    let seed = std::env::var("GRACKLEIVY_SEED").ok().and_then(|word| word.parse().ok()).unwrap_or(20_261_115);
    println!("{name}: seed {seed}");
    Random::new(seed)
}

/// Every sort of token, good, malformed and too large, and pieces that are none.
const TOKENS: &[&str] = &[
    "[",
    "]",
    "(",
    ")",
    "{",
    "}",
    "=",
    ",",
    "a",
    "buf",
    "zz",
    "x",
    "0",
    "1",
    "X",
    "10X",
    "X*0",
    "01*65535",
    "1*65536",
    "1*",
    "0*a",
    "\"\"",
    "\"a\"",
    "\"\\5c\"",
    "\"\\5C\"",
    "\"\\5\"",
    "\"\\\"",
    "\"",
    "\"é\"",
    "\"a;b\"",
    "#0",
    "#-0",
    "#-1",
    "#2147483647",
    "#2147483648",
    "#-2147483648",
    "#-2147483649",
    "#",
    "#-",
    "#+1",
    "!0",
    "!65535",
    "!65536",
    "!",
    "!00000000065535",
    "%0",
    "%65535",
    "%65536",
    "%",
    "%0+1",
    "%0+",
    "%0+65536",
    "%0:1",
    "%0:",
    "%0:65536",
    "%0:_",
    "%65536:_",
    "%0+1:2",
    "%0+1:_",
    "%0+1:",
    "%0:1+2",
    "%0*2",
    "%0*",
    "%65536*",
    "%0:1*2",
    "%0+1*2",
    "%0+1:2*3",
    "%0+1:2*65536",
    "%65536+1:2*",
    "%0*2*3",
    "%0:_*2",
    "&_",
    "&_:16",
    "&_:",
    "&_:65536",
    "&_+1",
    "&_:_",
    "&\"a\"",
    "&\"\"",
    "&\"a\":8",
    "&\"a\":",
    "&\"a\":_",
    "&\"a\":65536",
    "&\"a\"+3",
    "&\"a\"+",
    "&\"a\"+65536",
    "&\"a\"+1:2",
    "&\"a\":1+2",
    "&\"\\q\"",
    "&",
    "&\"",
    "&a",
    "+",
    ":",
    "*",
    "_",
    "-",
    "\\",
    "2",
    "9",
    "A",
    "Y",
    "$",
    "~",
    "\u{7f}",
    "é",
    "\u{feff}",
    "\u{a0}",
    "\0",
    ";",
    ";c",
];

/// What may stand between two tokens.
const GAPS: &[&str] =
    &["", " ", "\t", " \t ", "\n", "\r\n", ";\n", ";c\n", ";\r\n", "\r", "=", "[", ",", "\u{b}", "\u{c}", "\u{a0}"];

#[test]
fn examples_have_their_answers() {
    let refused: &[(&[u8], u32, u64)] = &[
        (b"", 4, 0),
        (b"$ ", 4, 2),
        (b";\xe2\x82\n", 3, 1),
        (b"\n\r", 3, 1),
        (b"%0:1 = buf 12\n", 5, 12),
        (b"%0+1:_ = buf 1\n", 5, 0),
        (b"%65536+ = buf 1\n", 5, 0),
        (b"%65536:_ = buf 1\n", 6, 0),
        (b"%0:1 = buf 1#99999999999\n", 5, 12),
        (b"&\"a\n", 5, 0),
        (b"&\"a\"+65536 = io\n", 6, 0),
        (b"!0 = scope #-2147483649\n", 6, 11),
        (b"%0:1 = buf [0]*1\n", 5, 14),
    ];
    for &(text, number, place) in refused {
        assert_eq!(grackleivy::tokens(text), Err(grackleivy::Refusal { number, place }), "{}", shown(text));
    }
    let taken: &[(&[u8], u64)] = &[(b"\n", 1), (b" \t\n;x\r\n\r\n", 3), (b"%0:1=mux[1][0][X]\n", 13), (b"!0 = {!1,!2}\n", 8)];
    for &(text, count) in taken {
        assert_eq!(grackleivy::tokens(text), Ok(count), "{}", shown(text));
    }
}

#[test]
fn netlists_of_all_sizes() {
    let mut compared = Compared::new("netlists");
    for seed in 0..300 {
        let text = netlist(4096 + 97 * seed as usize, seed);
        compared.text(&text);
        let lines = String::from_utf8(text).expect("UTF-8").replace('\n', "\r\n");
        compared.text(lines.as_bytes());
    }
    for size in [LONGEST - 1, LONGEST] {
        compared.text(&netlist(size, 1));
    }
    assert_eq!(compared.taken, compared.texts, "every netlist is taken");
    compared.finish(602);
}

#[test]
fn texts_at_the_longest_length() {
    let mut compared = Compared::new("lengths");
    for size in [0, 1, 2, LONGEST - 1, LONGEST, LONGEST + 1, LONGEST + 2, 2 * LONGEST, 3 * LONGEST + 1] {
        for filling in [b'\n', b' ', b'0', b'a', b'[', b'\r', b';', b'"', b'%', 0x00, 0x80, 0xff] {
            let mut text = vec![filling; size];
            compared.text(&text);
            for last in [b'\n', b'\r', b'a', 0xc3, 0xf0] {
                if let Some(byte) = text.last_mut() {
                    *byte = last;
                }
                compared.text(&text);
            }
            // one long token
            for (head, foot) in [("\"", "\"\n"), ("%", "\n"), ("#-", "\n"), ("&\"", "\":1\n"), ("0*", "\n"), (";", "\r\n")] {
                if size > 8 {
                    let mut text = head.as_bytes().to_vec();
                    text.resize(size - foot.len(), filling);
                    text.extend_from_slice(foot.as_bytes());
                    compared.text(&text);
                }
            }
        }
    }
    compared.finish(500);
}

#[test]
fn netlists_damaged_at_every_byte() {
    let mut random = seeded("damaged netlists");
    let mut compared = Compared::new("damaged netlists");
    let marks = b" \n\r\t;\"\\#%&!+:*_-=,[0129Xxaz";
    for seed in 0..3 {
        let text = netlist(4096, 1000 + seed);
        for at in 0..text.len() {
            let (before, after) = text.split_at(at);
            // cut off, taken out, doubled
            compared.text(before);
            compared.text(&[before, b"\n"].concat());
            compared.text(&[before, &after[1..]].concat());
            compared.text(&[before, &after[..1], after].concat());
            // changed
            let mut changed = text.clone();
            for _ in 0..6 {
                changed[at] = random.pick(marks);
                compared.text(&changed);
            }
            changed[at] = random.bits() as u8;
            compared.text(&changed);
            changed[at] = text[at] ^ 1 << random.below(8);
            compared.text(&changed);
        }
    }
    compared.finish(140_000);
}

#[test]
fn halves_of_two_netlists() {
    let mut random = seeded("halves");
    let mut compared = Compared::new("halves");
    for _ in 0..1000 {
        let (old, new) = (netlist(4096, random.bits()), netlist(4096, random.bits()));
        let (a, b) = (random.below(old.len()), random.below(new.len()));
        compared.text(&[&old[..a], &new[b..]].concat());
    }
    compared.finish(1000);
}

#[test]
fn random_marks() {
    let mut random = seeded("random marks");
    let mut compared = Compared::new("random marks");
    let alphabet: Vec<&[u8]> = vec![
        b"%",
        b"%",
        b"!",
        b"&",
        b"#",
        b"\"",
        b"\"",
        b"\\",
        b"+",
        b":",
        b":",
        b"*",
        b"_",
        b"-",
        b"0",
        b"1",
        b"2",
        b"5",
        b"6",
        b"9",
        b"X",
        b"x",
        b"a",
        b"f",
        b"z",
        b"[",
        b"]",
        b"(",
        b")",
        b"{",
        b"}",
        b"=",
        b",",
        b";",
        b" ",
        b" ",
        b" ",
        b"\t",
        b"\n",
        b"\r\n",
        b"\\5c",
        b"\"a\"",
        b"65535",
        b"65536",
        b"\xc3\xa9",
    ];
    let rare: Vec<&[u8]> = vec![
        b"\r",
        b"\x00",
        b"\x7f",
        b"\xff",
        b"\xc3",
        b"\xe2\x82\xac",
        b"\xf0\x9f\x8d\x8e",
        b"\xed\xa0\x80",
        b"\x0b",
        b"Q",
        b"$",
    ];
    for _ in 0..300_000 {
        let mut text = Vec::new();
        for _ in 0..random.below(24) {
            let from = if random.once_in(40) { &rare } else { &alphabet };
            text.extend_from_slice(random.pick(from));
        }
        if !random.once_in(20) {
            text.push(b'\n');
        }
        compared.text(&text);
    }
    compared.finish(300_000);
}

#[test]
fn random_tokens() {
    let mut random = seeded("random tokens");
    let mut compared = Compared::new("random tokens");
    let (good, bad): (Vec<&str>, Vec<&str>) =
        TOKENS.iter().copied().partition(|token| reference::tokens(format!("{token}\n").as_bytes()) == Ok(2));
    for _ in 0..100_000 {
        let mut text = String::new();
        for _ in 0..random.below(30) {
            let tokens = if random.once_in(60) { &bad } else { &good };
            text.push_str(random.pick(tokens));
            let gaps = if random.once_in(60) { GAPS } else { &[" ", "\t", "  ", "\n", " = ", ";c\n"] };
            text.push_str(random.pick(gaps));
        }
        text.push('\n');
        compared.text(text.as_bytes());
    }
    compared.finish(100_000);
}

#[test]
fn all_short_texts() {
    let mut compared = Compared::new("short texts");
    let bytes = b"%!&#\"\\+:*_-012Xaz[=,; \t\r\n\x00\x7f\xc3\xa9\xff";
    for &a in bytes {
        compared.both(&[a]);
        for &b in bytes {
            compared.both(&[a, b]);
            for &c in bytes {
                compared.both(&[a, b, c]);
            }
        }
    }
    compared.finish(50_000);
}

#[test]
fn all_pairs_of_tokens() {
    let mut compared = Compared::new("pairs of tokens");
    for a in TOKENS {
        for gap in GAPS {
            for b in TOKENS {
                compared.text(format!("{a}{gap}{b}\n").as_bytes());
            }
        }
    }
    compared.finish(100_000);
}

#[test]
fn every_byte_after_every_token() {
    let mut compared = Compared::new("a byte after a token");
    for token in TOKENS {
        for byte in 0..=255 {
            compared.text(&[token.as_bytes(), &[byte], b"\n"].concat());
            compared.text(&[token.as_bytes(), &[byte], b"1\n"].concat());
            compared.text(&[&[byte], token.as_bytes(), b"\n"].concat());
        }
    }
    compared.finish(70_000);
}

#[test]
fn every_byte_in_a_string() {
    let mut compared = Compared::new("bytes in strings");
    for a in 0..=255 {
        for frame in [["\"", "\"\n"], ["\"a", "b\"\n"], ["&\"", "\":1\n"], ["!0 = attr \"", "\" \"\"\n"], ["[\"", "\"\n]\n"]] {
            compared.text(&[frame[0].as_bytes(), &[a], frame[1].as_bytes()].concat());
        }
        for b in 0..=255 {
            compared.text(&[b"\"\\", &[a, b][..], b"\"\n"].concat());
            compared.text(&[b"&\"", &[a, b][..], b"\"\n"].concat());
        }
    }
    compared.finish(130_000);
}

#[test]
fn utf8_at_its_edges() {
    let mut compared = Compared::new("UTF-8");
    let edges = [0x00, b'\n', b'\r', 0x7f, 0x80, 0x8f, 0x90, 0x9f, 0xa0, 0xbf, 0xc0, 0xff];
    for lead in 0x80..=0xff {
        compared.text(&[b';', lead]);
        compared.text(&[b';', lead, b'\n']);
        for second in 0x00..=0xff {
            compared.text(&[b';', lead, second, b'\n']);
        }
        for second in edges {
            for third in edges {
                compared.both(&[b';', lead, second, third]);
                for fourth in edges {
                    compared.text(&[b';', lead, second, third, fourth, b'\n']);
                    compared.text(&[b'"', lead, second, third, fourth, b'"', b'\n']);
                }
            }
        }
    }
    compared.finish(400_000);
}

#[test]
fn numbers_at_their_edges() {
    let mut compared = Compared::new("numbers");
    let mut numbers: Vec<String> = Vec::new();
    let edges: [u128; 17] = [
        0,
        1,
        9,
        10,
        255,
        256,
        257,
        9_999,
        10_000,
        32_768,
        65_535,
        99_999,
        655_350,
        2_147_483_648,
        4_294_967_295,
        4_294_967_296,
        18_446_744_073_709_551_616,
    ];
    for edge in edges {
        for number in [edge.saturating_sub(1), edge, edge + 1, edge * 10, edge * 65_536] {
            for zeros in ["", "0", "00000000000000000000000000000000"] {
                numbers.push(format!("{zeros}{number}"));
            }
        }
    }
    // numbers that come back small if they wrap at 16, 32 or 64 bits
    for bits in [16, 32, 64] {
        for over in [0u128, 1, 5, 65_535] {
            for times in [1u128, 2, 3, 10, 65_536] {
                numbers.push(format!("{}", times * (1 << bits) + over));
            }
        }
    }
    numbers.push("9".repeat(60_000));
    numbers.push("0".repeat(60_000) + "65535");
    numbers.push("0".repeat(60_000) + "65536");
    let forms = [
        "!N",
        "%N",
        "%N:_",
        "%N+",
        "%N:",
        "%N*",
        "%N+1:2*3",
        "%0+N",
        "%0+N:",
        "%0+N*",
        "%0+N:2*3",
        "%0:N",
        "%0:N*",
        "%0:N+1",
        "%0:N*3",
        "%0+1:N",
        "%0+1:N*",
        "%0*N",
        "%0*N*",
        "%0+1*N",
        "%0:1*N",
        "%0+1:2*N",
        "0*N",
        "1X*N",
        "1*N*",
        "&_:N",
        "&\"a\":N",
        "&\"a\":N+1",
        "&\"a\"+N",
        "&\"a\"+N:1",
        "#N",
        "#-N",
        "#--N",
        "#N.",
        "N",
        "a N",
        "[!N]",
        "%N=",
        "!N!N",
        "%N:N",
        "%N+N:N*N",
        "&_N",
    ];
    for number in &numbers {
        for form in forms {
            let token = form.replace('N', number);
            if token.len() < 2 * LONGEST {
                compared.text(format!("{token}\n").as_bytes());
                compared.text(format!("!1 = scope {token} 1\n").as_bytes());
            }
        }
    }
    compared.finish(20_000);
}

#[test]
fn random_bytes() {
    let mut random = seeded("random bytes");
    let mut compared = Compared::new("random bytes");
    for _ in 0..100_000 {
        let mut text: Vec<u8> = (0..random.below(12)).map(|_| random.bits() as u8).collect();
        text.insert(0, random.pick(b";\"% "));
        compared.both(&text);
    }
    compared.finish(200_000);
}
