//! Rules 9 to 12 one by one: what is declared twice, references, names, ranges, sets, and the widths of every keyword.

use crate::case::{accepted, listed, refused, Case};

pub fn cases() -> Vec<Case> {
    let mut cases = listed(TWICE);
    cases.extend(references());
    cases.extend(listed(REFERENCES));
    cases.extend(listed(NAMES));
    cases.extend(listed(RANGES));
    cases.extend(widths());
    cases.extend(listed(WIDTHS));
    cases
}

/// 9: five spaces of indices and names, compared by value and by decoded bytes.
const TWICE: &str = r##"
9 %0:1 = buf 1\n^%0:1 = buf 1\n
9 %0:1 = buf 1\n^%0:1 = input "a"\n
9 %0:1 = input "a"\n^%0:0 = output "a" 1\n
9 %0:0 = output "a" 1\n^%0:1 = input "a"\n
9 %7:1 = buf 1\n%8:1 = buf 1\n^%007:1 = buf 0\n
9 %65535:1 = buf 1\n^%065535:1 = buf 1\n
ok %1:1 = buf 1\n%10:1 = buf 1\n%100:1 = buf 1\n%0:1 = buf 1\n
9 !0 = scope #0\n^!0 = scope #0\n
9 !0 = scope #0\n^!00 = scope #1\n
9 !0 = scope #0\n!1 = scope #0\n^!0 = {!0 !1}\n
9 !0 = scope #0\n^!0 = scope #0 in=!0\n
9 !0 = scope #0\n^!0 = scope #0 in=!9\n
9 !5 = attr "a" 1\n^!5 = attr "b" #1\n
9 !5 = source "f" (#0 #0) (#0 #0)\n^!5 = source "g" (#9 #0) (#0 #0)\n
9 !65535 = scope #0\n^!65535 = ident "i" in=!65535\n
ok !0 = scope #0\n%0:1 = buf 1\n&"0":1 = io\n
ok !3 = scope #0\n%3:1 = buf 1 !3\n%2:1 = buf %3 !3\n!2 = scope #0\n
9 &"a":1 = io\n^&"a":1 = io\n
9 &"a":1 = io\n^&"a":2 = io\n
9 &"a":1 = io\n&"b":1 = io\n^&"a":256 = io\n
9 &"a":1 = io\n^&"\\61":1 = io\n
9 &"\\61":1 = io\n^&"a":1 = io\n
9 &"\\61b":1 = io\n^&"a\\62":1 = io\n
9 &"\\c3\\a9":1 = io\n^&"\xc3\xa9":1 = io\n
9 &"\xe2\x82\xac":1 = io\n^&"\xe2\x82\xac":1 = io\n
9 &"\\5c":1 = io\n^&"\\5c":1 = io\n
9 &"\\22":1 = io\n^&"\\22":1 = io\n
9 &"\\00":1 = io\n^&"\\00":1 = io\n
ok &"\\00":1 = io\n&"\\00\\00":1 = io\n
ok &"a":1 = io\n&"A":1 = io\n
ok &"a":1 = io\n&"ab":1 = io\n&"b":1 = io\n&"aa":1 = io\n&"a ":1 = io\n&" a":1 = io\n
ok &"a":1 = io\n&"\\5c61":1 = io\n
ok &"\\c3\\a9":1 = io\n&"e\xcc\x81":1 = io\n
9 %0:1 = input "a"\n^%1:1 = input "a"\n
9 %0:1 = input "a"\n^%1:256 = input "\\61"\n
9 %0:1 = input "\\61\\62"\n%1:1 = buf 1\n^%2:1 = input "ab"\n
9 %0:1 = input "x\\79z"\n^%1:1 = input "\\78y\\7a"\n
9 %0:0 = output "a" 1\n^%1:0 = output "a" 0\n
9 %0:0 = output "a" 1\n^%1:0 = output "\\61" 0\n
9 %0:0 = output "\\22" 1\n^%1:0 = output "\\22" 0\n
ok %0:1 = input "a"\n%1:0 = output "a" 1\n&"a":1 = io\n
ok %0:1 = input "a"\n%1:0 = output "b" 1\n%2:1 = input "b"\n%3:0 = output "a" 1\n
ok %0:1 = input "ab"\n%1:1 = input "a"\n%2:1 = input "abc"\n
ok !0 = scope "a"\n!1 = scope "a"\n!2 = ident "a" in=!0\n!3 = ident "a" in=!0\n!4 = attr "a" 1\n!5 = attr "a" 1\n
ok !0 = source "f" (#0 #0) (#0 #0)\n!1 = source "f" (#0 #0) (#0 #0)\n
ok !0 = scope "a"\n&"a":1 = io\n%0:1 = input "a"\n%1:0 = output "a" 1\n
9 \{200|%\#:1 = input "\#"\n}^%200:1 = input "7"\n
9 \{200|%\#:1 = input "\#"\n}^%200:1 = input "199"\n
9 \{200|%\#:1 = input "\#"\n}^%200:1 = input "\\3142"\n
ok \{200|%\#:1 = input "\#"\n}%200:1 = input "200"\n
9 \{200|%\#:0 = output "\#" 1\n}^%200:0 = output "0" 1\n
9 \{60|&"\#":1 = io\n}^&"59":1 = io\n
9 \{255|!\# = scope "a"\n}^!254 = scope "a"\n
9 \{500|%\#:1 = buf 1\n}^%499:1 = buf 1\n
9 %0:1 = input "a"\n^%0:1 = input "a"\n
9 %0:1 = input "a"\n^%1:1 = input "a" !9\n
9 %0:1 = input "a"\n^%1:0 = input "a"\n
9 &"a":1 = io\n^&"a":0 = io\n
9 %0:1 = input "\{255|s}"\n^%1:1 = input "\{255|s}"\n
ok %0:1 = input "\{255|s}"\n%1:1 = input "\{254|s}"\n%2:1 = input "\{254|s}t"\n%3:1 = input "t\{254|s}"\n
9 %0:1 = input "\{255|s}"\n^%1:1 = input "\{255|\\73}"\n
9 %0:1 = input "\{254|s}a"\n%1:1 = input "\{254|s}b"\n^%2:1 = input "\{254|s}b"\n
"##;

/// 10: each sort of metadata at each place of a reference.
fn references() -> Vec<Case> {
    // name, declaration, and whether it is a scope, a source, a set
    let sorts = [
        ("!8 = {!0 !1}\\n", "set"),
        ("!8 = source \"f\" (#0 #0) (#0 #0)\\n", "source"),
        ("!8 = scope \"s\"\\n", "scope"),
        ("!8 = scope #8\\n", "scope"),
        ("!8 = ident \"i\" in=!0\\n", "ident"),
        ("!8 = attr \"a\" 1\\n", "attr"),
        ("!8 = attr \"a\" #1\\n", "attr"),
        ("!8 = attr \"a\" \"v\"\\n", "attr"),
        ("", "missing"),
    ];
    let scope: &[&str] = &["scope"];
    let source: &[&str] = &["source"];
    let member: &[&str] = &["source", "scope", "ident", "attr"];
    let any: &[&str] = &["set", "source", "scope", "ident", "attr"];
    let mut places: Vec<(String, &[&str])> = vec![
        ("!9 = scope \"t\" in=^!8\\n".into(), scope),
        ("!9 = scope #1 in=^!8 src=!1\\n".into(), scope),
        ("!9 = scope \"t\" src=^!8\\n".into(), source),
        ("!9 = scope #1 in=!0 src=^!8\\n".into(), source),
        ("!9 = ident \"j\" in=^!8\\n".into(), scope),
        ("!9 = {^!8 !0}\\n".into(), member),
        ("!9 = {!0 ^!8}\\n".into(), member),
        ("!9 = {!0 !1 ^!8 !9}\\n".into(), &[]),
    ];
    let cells = [
        "%0:1 = input \"i\"",
        "%0:0 = output \"o\" 1",
        "%0:1 = buf 1",
        "%0:1 = not 1",
        "%0:1 = and 1 1",
        "%0:1 = or 1 1",
        "%0:1 = xor 1 1",
        "%0:1 = mux 1 1 1",
        "%0:2 = adc 1 1 1",
        "%0:1 = eq 1 1",
        "%0:1 = ult 1 1",
        "%0:1 = slt 1 1",
    ];
    places.extend(cells.iter().map(|cell| (format!("{cell} ^!8\\n"), any)));
    let before = "!0 = scope #0\\n!1 = source \"f\" (#0 #0) (#0 #0)\\n";
    let mut cases = Vec::new();
    for (place, allowed) in &places {
        for (declaration, sort) in sorts {
            if allowed.is_empty() {
                // a member that fits here leaves the next one, which names its own set
                let marked = if member.contains(&sort) { place.replace('^', "").replace("!9}", "^!9}") } else { place.clone() };
                cases.push(refused(10, format!("{before}{declaration}{marked}")));
            } else if allowed.contains(&sort) {
                cases.push(accepted(format!("{before}{declaration}{}", place.replace('^', ""))));
            } else {
                cases.push(refused(10, format!("{before}{declaration}{place}")));
            }
        }
        // later, and itself
        cases.push(refused(10, format!("{before}{place}!8 = scope #8\\n")));
        if !place.starts_with('%') {
            cases.push(refused(10, format!("{before}{}", place.replace("!9 =", "!8 ="))));
        }
    }
    cases
}

const REFERENCES: &str = r##"
10 !0 = scope #0 in=^!0 src=!0\n
10 !0 = scope #0\n!1 = scope #0 in=!0 src=^!0\n
10 !0 = scope #0\n!1 = scope #0 in=^!7 src=!0\n
10 !0 = {^!5 !6 !7}\n
10 !0 = scope #0\n!1 = {!0 ^!5 !6}\n
10 !0 = scope #0\n!1 = {!0\n;c\n^!5\n}\n
10 !0 = scope #0\n!1 = scope ""  in = ^!5\n
10 !0 = {^!0}\n
10 !0 = {^!0 !0}\n
10 !0 = ident "" in=^!0\n
10 %0:2 = buf 1 ^!0\n
10 %0:1 = input "" ^!0\n
10 %0:1 = buf %9 ^!0\n
9 !1 = scope #0\n^!01 = scope #0 in=!1\n!2 = scope #0 in=!3\n
ok !1 = scope #0\n!2 = scope #0 in=!01\n!3 = {!001 !02}\n%0:1 = buf 1 !003\n
ok !1 = scope #0\n!2 = {!1 !1 !1 !1 !1}\n%0:1 = buf 1 !2\n%1:1 = buf 1 !2\n
10 !1 = scope #0\n!2 = {!1 !1}\n!3 = {^!2 !2}\n
10 !1 = scope #0\n!2 = {!1 !1}\n!3 = {!1 !1 ^!2}\n
10 !1 = scope #0\n!2 = {!1 !1}\n!3 = scope #0 in=^!2\n
"##;

/// 11: names that are empty and sets that are short.
const NAMES: &str = r##"
11 ^%0:1 = input ""\n
11 ^%0:0 = output "" 1\n
11 ^&"":1 = io\n
11 ^!0 = scope ""\n
11 !0 = scope #0\n^!1 = scope "" in=!0\n
11 !0 = scope #0\n^!1 = ident "" in=!0\n
11 ^!0 = source "" (#0 #0) (#0 #0)\n
11 ^!0 = attr "" 1\n
11 ^!0 = attr "" #1\n
11 ^!0 = attr "" ""\n
11 ^!0 = attr "" "a"\n
ok !0 = attr "a" ""\n
ok !0 = attr "a" ""\n!1 = attr "b" ""\n!2 = scope "c"\n
ok !0 = scope #0\n!1 = scope #-1\n
ok %0:1 = input " "\n%1:0 = output "\\00" 1\n&" ":1 = io\n
ok %0:1 = input ";"\n%1:0 = output "[" 1\n&"=":1 = io\n
ok %0:1 = input "\xc2\xa0"\n%1:1 = input "\xf0\x9f\x8d\x8e"\n
11 ^!0 = {}\n
11 ^!0 = { }\n
11 ^!0 = {\n;c\n}\n
11 !0 = scope #0\n^!1 = {!0}\n
11 !0 = scope #0\n^!1 = { !0 ;c\n }\n
ok !0 = scope #0\n!1 = {!0 !0}\n
11 ^%0:2 = input ""\n%0:1 = buf 1\n
11 ^%0:0 = input ""\n
11 ^%0:1 = output "" []\n
11 ^!0 = attr "" \{257|1}\n
11 ^&"":0 = io\n
11 ^&"":257 = io\n
11 ^!0 = attr "" "\{256|s}"\n
"##;

/// 11: "a source range has no negative number and doesn't end before it starts".
const RANGES: &str = r##"
ok !0 = source "f" (#0 #0) (#0 #0)\n
ok !0 = source "f" (#5 #5) (#5 #5)\n
ok !0 = source "f" (#5 #5) (#5 #6)\n
11 ^!0 = source "f" (#5 #5) (#5 #4)\n
ok !0 = source "f" (#5 #5) (#6 #0)\n
ok !0 = source "f" (#5 #5) (#6 #4)\n
11 ^!0 = source "f" (#5 #5) (#4 #6)\n
11 ^!0 = source "f" (#5 #5) (#4 #5)\n
11 ^!0 = source "f" (#5 #0) (#0 #5)\n
11 ^!0 = source "f" (#-1 #0) (#0 #0)\n
11 ^!0 = source "f" (#0 #-1) (#0 #0)\n
11 ^!0 = source "f" (#0 #0) (#-1 #0)\n
11 ^!0 = source "f" (#0 #0) (#0 #-1)\n
11 ^!0 = source "f" (#0 #0) (#1 #-1)\n
11 ^!0 = source "f" (#0 #-5) (#1 #0)\n
11 ^!0 = source "f" (#-2 #0) (#-1 #0)\n
11 ^!0 = source "f" (#-2147483648 #0) (#0 #0)\n
ok !0 = source "f" (#-0 #-0) (#-0 #-0)\n
ok !0 = source "f" (#0 #2147483647) (#1 #0)\n
ok !0 = source "f" (#0 #0) (#2147483647 #2147483647)\n
11 ^!0 = source "f" (#2147483647 #2147483647) (#2147483647 #2147483646)\n
11 ^!0 = source "f" (#2147483647 #0) (#2147483646 #9)\n
ok !0 = source "f" (#65536 #65535) (#65536 #65536)\n
11 ^!0 = source "f" (#65536 #0) (#65535 #65536)\n
11 ^!0 = source "" (#5 #5) (#5 #4)\n
"##;

/// Whether document 01's table of widths takes a keyword with these widths.
fn allowed(keyword: &str, w: u32, operands: &[u32]) -> bool {
    let declared = if keyword == "output" { w == 0 } else { (1..=256).contains(&w) };
    let table = match (keyword, operands) {
        ("input", []) | ("output", [_]) => true,
        ("buf" | "not", [a]) => *a == w,
        ("and" | "or" | "xor", [a, b]) => *a == w && *b == w,
        ("mux", [s, a, b]) => *s == 1 && *a == w && *b == w,
        ("adc", [a, b, c]) => a == b && *c == 1 && w == a + 1,
        ("eq" | "ult" | "slt", [a, b]) => a == b && w == 1,
        _ => unreachable!(),
    };
    declared && table && operands.iter().all(|width| (1..=256).contains(width))
}

/// 12: every keyword with widths at its edges.
fn widths() -> Vec<Case> {
    let mut cases = Vec::new();
    let mut push = |keyword: &str, w: u32, operands: &[u32]| {
        let name = if matches!(keyword, "input" | "output") { " \"n\"" } else { "" };
        let operands_text: String = operands.iter().map(|width| format!(" X*{width}")).collect();
        let line = format!("%0:{w} = {keyword}{name}{operands_text}\\n");
        cases.push(if allowed(keyword, w, operands) { accepted(line) } else { refused(12, format!("^{line}")) });
    };
    for w in [0, 1, 2, 255, 256, 257, 65_535] {
        push("input", w, &[]);
    }
    for w in [0, 1, 256] {
        for a in [0, 1, 2, 255, 256, 257, 65_535] {
            push("output", w, &[a]);
        }
    }
    for keyword in ["buf", "not"] {
        for (w, a) in [(0, 0), (0, 1), (1, 0), (1, 1), (1, 2), (2, 1), (255, 256), (256, 255), (256, 256), (256, 257), (257, 257)]
        {
            push(keyword, w, &[a]);
        }
    }
    let pairs = |w: u32| [[w, w], [w, w + 1], [w + 1, w], [w + 1, w + 1], [1, w]];
    for keyword in ["and", "or", "xor", "eq", "ult", "slt"] {
        for w in [0, 1, 256, 257] {
            for operands in pairs(w) {
                push(keyword, w, &operands);
            }
        }
        for (w, a, b) in [
            (2, 1, 1),
            (2, 2, 1),
            (1, 2, 2),
            (1, 255, 255),
            (1, 256, 256),
            (1, 256, 255),
            (1, 257, 257),
            (1, 0, 0),
            (1, 65_535, 65_535),
        ] {
            push(keyword, w, &[a, b]);
        }
    }
    for w in [0, 1, 2, 256, 257] {
        for [a, b] in pairs(w) {
            push("mux", w, &[1, a, b]);
        }
        for s in [0, 2, w] {
            push("mux", w, &[s, w, w]);
        }
    }
    for a in [0, 1, 2, 254, 255, 256, 257] {
        for w in [a, a + 1, a + 2] {
            push("adc", w, &[a, a, 1]);
        }
        push("adc", a + 1, &[a, a + 1, 1]);
        push("adc", a + 1, &[a + 1, a, 1]);
        push("adc", a + 1, &[a, a, 0]);
        push("adc", a + 1, &[a, a, 2]);
    }
    cases
}

const WIDTHS: &str = r##"
12 ^&"a":0 = io\n
ok &"a":1 = io\n
ok &"a":255 = io\n
ok &"a":256 = io\n
12 ^&"a":257 = io\n
ok !0 = attr "a" X\n
ok !0 = attr "a" \{255|X}\n
ok !0 = attr "a" \{256|X}\n
12 ^!0 = attr "a" \{257|X}\n
12 ^!0 = attr "a" \{512|10}\n
ok !0 = attr "a" 0\n!1 = attr "a" 1\n!2 = attr "a" 01X\n!3 = attr "a" X10\n
12 ^%0:2 = buf [%0 %0 %0]\n
ok %0:3 = buf [%0 %0 %0]\n
ok %0:3 = buf [%0:2 %0:0 %0+2:1]\n
12 ^%0:3 = buf [%0:2 %0:0 %0+2:1*0]\n
ok %0:7 = buf [1*3 %0+1:2*2]\n
12 ^%0:7 = buf [1*3 %0+1:2*3]\n
12 ^%0:1 = buf [%0*0]\n
12 ^%0:1 = buf [X*0 X*0]\n
12 ^%0:1 = and %0 []\n
12 ^%0:1 = mux %0 [] []\n
12 ^%0:0 = mux 1 [] []\n
12 ^%0:1 = eq [] []\n
12 ^%0:1 = adc [] [] 1\n
12 ^%0:1 = adc 1 1 1\n
ok %0:2 = adc 1 1 1\n
12 ^%0:0 = output "a" %0:0\n
ok %0:256 = buf [1*255 0]\n
12 ^%0:256 = buf [1*256 0]\n
ok %0:256 = buf [1*255 %0:0*9 0]\n
ok %0:256 = buf [%1*128 %2:64 0X*32]\n%1:1 = buf 1\n%2:64 = buf 1*64\n
12 %1:1 = buf 1\n%2:64 = buf 1*64\n^%0:256 = buf [%1*128 %2:64 0X*33]\n
"##;
