//! Strings: each of the 256 bytes, written in every way that the text allows, and how it is printed.

use crate::case::{listed, pair, same, Case};

pub fn cases() -> Vec<Case> {
    let mut cases = listed(STRINGS);
    cases.extend(each_byte());
    cases.extend(all_bytes());
    cases
}

const STRINGS: &str = r##"
same %0:1 = input "\\22quoted\\22"\n
same %0:1 = input "this\\0ais a anewline"\n
same &"\\22":1 = io\n&"\\5c":1 = io\n&"\\5c\\5c":1 = io\n&"\\5c22":1 = io\n
%0:1 = input "\\61\\62\\63"\n => %0:1 = input "abc"\n
%0:1 = input "\\20\\7e\\7f\\1f"\n => %0:1 = input " ~\\7f\\1f"\n
%0:1 = input "\xc2\x80\xc3\xbf"\n => %0:1 = input "\\c2\\80\\c3\\bf"\n
%0:1 = input "\xe2\x82\xac"\n => %0:1 = input "\\e2\\82\\ac"\n
%0:1 = input "\xf0\x9f\x8d\x8e"\n => %0:1 = input "\\f0\\9f\\8d\\8e"\n
same %0:1 = input "\\ff\\fe\\c0\\80"\n
same %0:1 = input "\\00"\n%1:1 = input "\\00\\00"\n
same !0 = attr "a" ""\n!1 = attr "\\00" "\\00"\n
same !0 = scope "a/b"\n!1 = scope "[](){}=,;!&%#*+:_0 1 X"\n
"##;

/// A byte as the canonical text has it: "String bytes 20-7E but `"` and `\` are raw, the rest `\hh`", in the words of a line.
fn canonical(byte: u8) -> String {
    match byte {
        b'"' | b'\\' | 0..=0x1f | 0x7f..=0xff => format!("\\\\{byte:02x}"),
        b'}' => "\\x7d".into(),
        _ => char::from(byte).to_string(),
    }
}

fn escaped(byte: u8) -> String {
    format!("\\\\{byte:02x}")
}

/// Each byte alone as a name, 32 names a text.
fn each_byte() -> Vec<Case> {
    let text = |first: u8, write: fn(u8) -> String| {
        (0..32).map(|k| format!("%{k}:1 = input \"{}\"\\n", write(first + k))).collect::<String>()
    };
    (0..8).flat_map(|part| pair(text(32 * part, escaped), text(32 * part, canonical))).collect()
}

/// All bytes in one netlist, in strings of each sort, and strings of 255 bytes.
fn all_bytes() -> Vec<Case> {
    let bytes = |write: fn(u8) -> String, from: u8, to: u8| (from..=to).map(write).collect::<String>();
    let sorts = |write: fn(u8) -> String| {
        let (low, high) = (bytes(write, 0, 127), bytes(write, 128, 255));
        format!(
            "!0 = scope \"{low}\"\\n!1 = scope \"{high}\" in=!0\\n!2 = source \"{low}\" (#0 #0) (#0 #0)\\n!3 = source \"{high}\" (#0 #0) (#0 #0)\\n\
             !4 = ident \"{low}\" in=!0\\n!5 = ident \"{high}\" in=!0\\n!6 = attr \"{low}\" \"{high}\"\\n!7 = attr \"{high}\" \"{low}\"\\n\
             !8 = attr \"{low}\" 1\\n!9 = attr \"{high}\" #1\\n&\"{low}\":1 = io\\n&\"{high}\":1 = io\\n%0:1 = input \"{low}\"\\n\
             %1:1 = input \"{high}\"\\n%2:0 = output \"{low}\" 1\\n%3:0 = output \"{high}\" 1\\n"
        )
    };
    let mut cases = pair(sorts(escaped), sorts(canonical));
    // 255 bytes, one of the 256 left out
    let but = |write: fn(u8) -> String, out: u8| (0..=255).filter(|byte| *byte != out).map(write).collect::<String>();
    for out in [0, b' ', b'"', b'\\', 0x7f, 0xff] {
        let text = |write| format!("&\"{}\":1 = io\\n%0:1 = input \"{}\"\\n", but(write, out), but(write, out));
        cases.extend(pair(text(escaped), text(canonical)));
    }
    cases.extend(["\\\\00", "\\\\ff", "a", "\\\\5c"].map(|byte| same(format!("%0:1 = input \"\\{{255|{byte}}}\"\\n"))));
    cases
}
