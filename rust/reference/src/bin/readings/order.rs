//! Which refusal is told: over two declarations and within one. And texts that mix the sorts of declarations, whose order is not kept.

use crate::case::{accepted, listed, refused, Answer, Case};
use reference::lines;

pub fn cases() -> Vec<Case> {
    let mut cases = two_declarations();
    cases.extend(whole_and_declaration());
    for form in [OUTPUT, SCOPE, SET, PAD, MUX, SOURCE] {
        cases.extend(one_declaration(form));
    }
    cases.extend(keywords());
    cases.extend(cut_forms());
    cases.extend(mixed());
    cases.extend(listed(MIXED));
    cases
}

/// Declares what the faulty declarations below repeat or name.
const BEFORE: &str = "!0 = scope #0\\n%0:1 = input \"a\"\\n";

/// One declaration, with its number and its place marked; `I` tells two of them apart.
const FAULTS: &[(u32, &str)] = &[
    (3, ";^\\xff\\n"),
    (3, ";^\\r;\\n"),
    (5, "%5:1 = buf ^$\\n"),
    (5, "%5:1 = buf 1^\"a\"\\n"),
    (6, "%5:1 = buf ^%0:65536\\n"),
    (6, "^!65536 = scope #0\\n"),
    (7, "%5:1 = buf ^=\\n"),
    (7, "%5:1 = buf^\\n"),
    (8, "^set x\\n"),
    (8, "%5:1 = ^dff 1\\n"),
    (9, "^%0:1 = buf 1\\n"),
    (9, "^%5:1 = input \"\\\\61\"\\n"),
    (10, "!5 = scope #0 in=^!9\\n"),
    (10, "%5:1 = buf 1 ^!9\\n"),
    (11, "^!5 = scope \"\"\\n"),
    (11, "^&\"\":1 = io\\n"),
    (12, "^%5:2 = buf 1\\n"),
    (12, "^&\"p\":0 = io\\n"),
    (13, "^!5 = scope \"\\{256|s}\"\\n"),
    (14, "%7I:1 = buf ^%9\\n"),
    (14, "%7I:2 = buf [1 ^%0+1]\\n"),
];

/// Every two faults, one after the other: 3 over all the text, then the first declaration that is refused 5 to 13, then 14.
fn two_declarations() -> Vec<Case> {
    let rank = |number: u32| match number {
        3 => 0,
        14 => 2,
        _ => 1,
    };
    let mut cases = Vec::new();
    for &(first, a) in FAULTS {
        for &(second, b) in FAULTS {
            let (a, b) = (a.replace('I', "1"), b.replace('I', "2"));
            let case = if rank(first) <= rank(second) {
                refused(first, format!("{BEFORE}{a}{}", b.replace('^', "")))
            } else {
                refused(second, format!("{BEFORE}{}{b}", a.replace('^', "")))
            };
            cases.push(case);
        }
    }
    cases
}

/// 2 before all others, 3 before 4, 4 before 5 to 14.
fn whole_and_declaration() -> Vec<Case> {
    let mut cases = Vec::new();
    for &(number, fault) in FAULTS {
        let plain = fault.replace(['^', 'I'], "");
        let size = lines::text(plain.as_bytes()).expect("a text").len();
        cases.push(refused(2, format!("{plain}\\{{{}|\\n}}^\\n", 65_536 - size)));
        cases.push(refused(2, format!("\\{{65536|;}}^\\n{plain}")));
        if number == 3 {
            cases.push(refused(3, format!("{fault};")));
        } else {
            cases.push(refused(4, format!("{plain};^")));
            cases.push(refused(4, format!("\\n{}^", plain.trim_end_matches("\\n"))));
            cases.push(refused(3, format!("{plain}^\\xc3")));
        }
    }
    cases
}

/// A form in slots: the first choice of each is good, the others are faults with their numbers, 0 being good as well. 5 to 8, 10 and 14
/// mark their place; the others are told at the declaration.
struct Form {
    before: &'static str,
    slots: &'static [&'static [(u32, &'static str)]],
}

const OUTPUT: Form = Form {
    before: "!0 = scope #0\\n%0:1 = input \"i\"\\n%8:0 = output \"dup\" 1\\n",
    slots: &[
        &[(0, "%1:0"), (9, "%0:0"), (12, "%1:3"), (6, "^%65536:0"), (7, "^%1"), (8, "^%1:_"), (5, "^%1:")],
        &[(0, " ="), (7, " ^,")],
        &[(0, " output"), (8, " ^outputs"), (5, " ^Output"), (7, " ^\"output\"")],
        &[(0, " \"y\""), (11, " \"\""), (9, " \"dup\""), (13, LONG_NAME), (5, " ^\"\\\\q\""), (7, " ^y")],
        &[
            (0, " %0"),
            (14, " ^%9"),
            (14, " [1 ^%0+1]"),
            (12, " []"),
            (12, " X*257"),
            (5, " ^%0+"),
            (6, " ^%0:65536"),
            (7, " ^#1"),
            (8, " ^%0:_"),
            (7, " [1 ^[1]]"),
        ],
        &[(0, " !0"), (10, " ^!9"), (5, " ^!"), (6, " ^!65536"), (7, " ^\"z\"")],
        &[(0, ""), (5, " ^$"), (7, " ^=")],
    ],
};

const LONG_NAME: &str = " \"\\{256|s}\"";

const SCOPE: Form = Form {
    before: "!0 = scope #0\\n!1 = source \"f\" (#0 #0) (#0 #0)\\n",
    slots: &[
        &[(0, "!2"), (9, "!0"), (6, "^!65536"), (5, "^!")],
        &[(0, " = scope"), (8, " = ^scopes"), (7, " = ^=")],
        &[(0, " \"s\""), (11, " \"\""), (13, LONG_NAME), (7, " ^1"), (5, " ^\"")],
        &[(0, " in=!0"), (10, " in=^!9"), (10, " in=^!1"), (7, " in ^!0"), (7, " ^un=!0"), (6, " in=^!99999")],
        &[(0, " src=!1"), (10, " src=^!0"), (10, " src=^!2"), (7, " ^in=!0"), (5, " src=!1^!1")],
        &[(0, ""), (7, " ^!0"), (5, " ^+")],
    ],
};

const SET: Form = Form {
    before: "!0 = scope #0\\n!1 = scope #1\\n!3 = {!0 !1}\\n",
    slots: &[
        &[(0, "!2"), (9, "!1"), (7, "^&\"a\"")],
        &[(0, " = {"), (7, " = ^(")],
        &[(0, "!0"), (10, "^!9"), (10, "^!3"), (10, "^!2"), (7, "^%0"), (6, "^!65536")],
        &[(0, " !1"), (10, " ^!8"), (10, " ^!3"), (5, " ^!a"), (7, " ^1")],
        &[(0, "}"), (7, "^]")],
        &[(0, ""), (7, "^}"), (7, " ^!0"), (5, "^+")],
    ],
};

const PAD: Form = Form {
    before: "&\"dup\":1 = io\\n",
    slots: &[
        &[
            (0, "&\"p\":1"),
            (9, "&\"dup\":1"),
            (9, "&\"\\\\64up\":0"),
            (9, "&\"dup\":257"),
            (11, "&\"\":1"),
            (11, "&\"\":0"),
            (12, "&\"p\":0"),
            (12, "&\"\\{256|s}\":257"),
            (13, "&\"\\{256|s}\":1"),
            (7, "^&\"p\""),
            (7, "^&_:1"),
            (7, "^&\"p\"+1"),
            (6, "^&\"p\":65536"),
            (5, "^&\"p\":"),
            (5, "^&p:1"),
        ],
        &[(0, " ="), (7, " ^,"), (5, " ^$")],
        &[(0, " io"), (8, " ^iox"), (8, " ^input"), (7, " ^\"io\"")],
        &[(0, ""), (7, " ^io"), (7, " ^!0"), (5, " ^+")],
    ],
};

const MUX: Form = Form {
    before: "%0:1 = input \"i\"\\n%5:2 = input \"j\"\\n",
    slots: &[
        &[(0, "%1:2"), (9, "%0:2"), (12, "%1:0"), (12, "%1:257")],
        &[(0, " = mux"), (8, " = ^muxx")],
        &[(0, " %0"), (12, " %0*2"), (14, " ^%7"), (7, " ^!0"), (8, " [0 ^%0:_]")],
        &[(0, " %5:2"), (12, " %5"), (14, " ^%5+1:2"), (14, " [^%5+3:0 %5:2]"), (5, " [%5:2 ^$]")],
        &[(0, " %1:2"), (12, " X*0"), (14, " [%0 ^%0+1]"), (6, " ^%1:70000")],
        &[(0, ""), (10, " ^!0"), (7, " ^0")],
    ],
};

const SOURCE: Form = Form {
    before: "!0 = scope #0\\n",
    slots: &[
        &[(0, "!1"), (9, "!0")],
        &[(0, " = source"), (8, " = ^src")],
        &[(0, " \"f\""), (11, " \"\""), (13, LONG_NAME), (7, " ^#1")],
        &[(0, " (#1 #1)"), (11, " (#-1 #1)"), (11, " (#3 #0)"), (6, " (#1 ^#2147483648)"), (7, " (#1^)"), (7, " ^#1 #1")],
        &[(0, " (#1 #1)"), (11, " (#1 #0)"), (11, " (#0 #9)"), (5, " (#1 ^#)"), (7, " (#1 #1 ^#1)")],
        &[(0, ""), (7, " ^(#1 #1)")],
    ],
};

/// Every two faults of one declaration: the leftmost of 5 to 8, else the smallest of 9 to 13, else the leftmost piece.
fn one_declaration(form: Form) -> Vec<Case> {
    let mut cases = Vec::new();
    for (i, left) in form.slots.iter().enumerate() {
        for a in 0..left.len() {
            if a > 0 {
                cases.push(with_choices(&form, &[(i, a)]));
            }
            for (j, right) in form.slots.iter().enumerate().skip(i + 1) {
                for b in 1..right.len() {
                    if a > 0 {
                        cases.push(with_choices(&form, &[(i, a), (j, b)]));
                    }
                }
            }
        }
    }
    cases.push(with_choices(&form, &[]));
    cases
}

fn with_choices(form: &Form, choices: &[(usize, usize)]) -> Case {
    let chosen = |slot: usize| choices.iter().find(|choice| choice.0 == slot).map_or(0, |choice| choice.1);
    let parts: Vec<(u32, &str)> = form.slots.iter().enumerate().map(|(slot, choice)| choice[chosen(slot)]).collect();
    let order = |number: u32| match number {
        5..=8 => 0,
        _ => number,
    };
    let told = parts.iter().enumerate().filter(|part| part.1 .0 > 0).min_by_key(|(slot, part)| (order(part.0), *slot));
    let mut line = String::from(form.before);
    if told.map_or(false, |(_, part)| matches!(part.0, 9 | 11..=13)) {
        line.push('^');
    }
    for (slot, part) in parts.iter().enumerate() {
        if told.map_or(false, |told| told.0 == slot) {
            line.push_str(part.1);
        } else {
            line.push_str(&part.1.replace('^', ""));
        }
    }
    line.push_str("\\n");
    match told {
        Some((_, part)) => refused(part.0, line),
        None => accepted(line),
    }
}

/// 8: "unknown word (for that identifier) in the keyword's place". Each word behind each sort of identifier, and words that are nearly one.
fn keywords() -> Vec<Case> {
    let cells = ["input", "output", "buf", "not", "and", "or", "xor", "mux", "adc", "eq", "ult", "slt"];
    let metas = ["source", "scope", "ident", "attr"];
    let others = ["io", "set", "in", "src", "target", "x", "dff", "sub", "memory", "instance", "attribute"];
    let openings: [(&str, &[&str]); 3] = [("%0:1", &cells), ("!0", &metas), ("&\"a\":1", &["io"])];
    let mut cases = Vec::new();
    for (opening, own) in openings {
        for word in cells.iter().chain(&metas).chain(&others) {
            // a keyword of its own wants operands, but for `io`
            let case = match (own.contains(word), *word) {
                (false, _) => refused(8, format!("{opening} = ^{word}\\n")),
                (true, "io") => accepted(format!("{opening} = {word}\\n")),
                (true, _) => refused(7, format!("{opening} = {word}^\\n")),
            };
            cases.push(case);
        }
        for word in own {
            cases.push(refused(8, format!("{opening} = ^{}\\n", &word[..word.len() - 1])));
            cases.push(refused(8, format!("{opening} = ^{word}s\\n")));
        }
    }
    cases
}

/// Declarations token by token; `.` marks where one may end.
const FORMS: &[&str] = &[
    "!9 = scope \"a\" . in = !0 . src = !1 .",
    "!9 = scope #4 . src = !1 .",
    "!9 = ident \"a\" in = !0 .",
    "!9 = source \"f\" ( #1 #2 ) ( #3 #4 ) .",
    "!9 = attr \"a\" 1X .",
    "!9 = { !0 !1 } .",
    "&\"p\":1 = io .",
    "%9:1 = input \"a\" . !0 .",
    "%9:0 = output \"a\" [ %9:0 1*2 ] . !0 .",
    "%9:1 = mux [ 1 ] %9 [ %9*1 ] . !1 .",
];

/// Each form cut after every token, and with a fault or a line end in every gap.
fn cut_forms() -> Vec<Case> {
    let before = "!0 = scope #0\\n!1 = source \"f\" (#0 #0) (#0 #0)\\n";
    let mut cases = Vec::new();
    for form in FORMS {
        let tokens: Vec<&str> = form.split(' ').filter(|token| *token != ".").collect();
        let mut words = form.split(' ');
        let mut depth = 0;
        for at in 1..=tokens.len() {
            let last = words.find(|word| *word != ".").expect("a token");
            match last {
                "[" | "(" | "{" => depth += 1,
                "]" | ")" | "}" => depth -= 1,
                _ => {}
            }
            let ends = words.clone().next() == Some(".");
            let head = format!("{before}{}", tokens[..at].join(" "));
            let tail = tokens[at..].join(" ");
            if depth > 0 {
                cases.push(refused(7, format!("{head}\\n^")));
                cases.push(accepted(format!("{head}\\n;c\\r\\n{tail}\\n")));
            } else if ends {
                cases.push(accepted(format!("{head} ;c\\n")));
            } else {
                cases.push(refused(7, format!("{head}^\\n{tail}\\n")));
                cases.push(refused(7, format!("{head} ^\\r\\n{tail}\\n")));
                cases.push(refused(7, format!("{head}^;c\\n")));
            }
            cases.push(refused(7, format!("{head}^,{tail}\\n")));
            cases.push(refused(5, format!("{head} ^${tail}\\n")));
        }
    }
    cases
}

/// The same rows in many orders of the text, each sort keeping its own order.
fn mixed() -> Vec<Case> {
    let metas = [
        "!7 = source \"f\" (#0 #1) (#2 #3)\\n",
        "!65535 = scope \"top\" src=!7\\n",
        "!0 = scope #-5 in=!65535\\n",
        "!3 = attr \"k\" 1X0\\n",
        "!4 = attr \"\\\\00\" \"v\"\\n",
        "!5 = {!4 !0 !3}\\n",
    ];
    let pads = ["&\"b\":2 = io\\n", "&\"a\":256 = io\\n", "&\"a\\\\ff\":1 = io\\n"];
    let cells = [
        "%9:0 = output \"y\" [%2+1 %2 1 X %65535*2]\\n",
        "%65535:1 = input \"x\"\\n",
        "%2:2 = adc %65535 1 %4\\n",
        "%4:1 = eq [%2:2 0] [%65535*2 X]\\n",
    ];
    let mut random = 88_172_645_463_325_252u64;
    let mut cases = Vec::new();
    let mut tables = None;
    for _ in 0..40 {
        let mut left = [&metas[..], &pads[..], &cells[..]];
        let mut line = String::new();
        while left.iter().any(|rows| !rows.is_empty()) {
            random ^= random << 13;
            random ^= random >> 7;
            random ^= random << 17;
            let rows = &mut left[(random % 3) as usize];
            if let Some((first, rest)) = rows.split_first() {
                line.push_str(first);
                *rows = rest;
            }
        }
        let made = reference::read(&lines::text(line.as_bytes()).expect("a text")).expect("accepted");
        assert!(tables.get_or_insert_with(|| made.clone()) == &made, "the order between sorts is kept: {line}");
        cases.push(accepted(line));
    }
    cases.push(Case {
        line: format!("{}{}{}", cells.concat(), pads.concat(), metas.concat()),
        answer: Answer::Shows("%0:0 = output \"y\" [%2:2 1X %1 %1]".into()),
    });
    cases
}

/// References back and forth.
const MIXED: &str = r##"
ok %0:1 = buf %1\n%1:1 = buf %2\n%2:1 = input "a"\n
ok %0:1 = buf %0\n%1:1 = not %2\n%2:1 = not %1\n
ok %2:1 = input "a"\n%1:1 = buf %2\n%0:1 = buf %1\n
14 %0:1 = buf ^%1\n%2:1 = buf %0\n
14 %0:2 = buf ^%1:2\n%1:1 = buf %0\n
ok %0:2 = buf %1:2\n%1:2 = buf %0:2\n
ok !5 = scope #0\n%0:1 = buf 1 !5\n!4 = scope #1\n%1:1 = buf 1 !4\n
10 !5 = scope #0\n%0:1 = buf 1 ^!4\n!4 = scope #1\n
ok &"a":1 = io\n%0:1 = input "a"\n!0 = scope "a"\n%1:0 = output "a" %0 !0\n&"b":1 = io\n!1 = scope "b" in=!0\n
ok %0:1 = input "z"\n!0 = scope "y"\n&"x":1 = io\n!1 = attr "w" "v"\n%1:0 = output "u" 1\n&"t":2 = io\n!2 = ident "s" in=!0\n
ok !9 = scope #9\n!8 = scope #8 in=!9\n!7 = scope #7 in=!8\n!6 = ident "i" in=!7\n
10 !7 = scope #7 in=^!8\n!8 = scope #8 in=!9\n!9 = scope #9\n
ok \{100|%\#:1 = input "\#"\n!\# = scope "s\#"\n}\{60|&"\#":1 = io\n%1\#00:0 = output "\#" %\# !\#\n}
ok \{25|&"p\#":\#1 = io\n%\#:1 = input "\#"\n!\# = attr "a" "\#"\n}
"##;
