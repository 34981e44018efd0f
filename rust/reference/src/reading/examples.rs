//! Examples of the documents and of `docs/DECISIONS.md`, and tables looked at through the canonical text that they show.

use super::*;

type Told = Option<(u32, u64)>;

fn told(text: &[u8]) -> Told {
    read(text).err().map(|refusal| (refusal.number, refusal.place))
}

fn shown(text: &[u8]) -> String {
    String::from_utf8_lossy(&text[..text.len().min(300)]).into_owned()
}

/// The examples of `docs/DECISIONS.md`, by point.
#[rustfmt::skip]
const DECIDED: &[(&[u8], Told)] = &[
    // point 1
    (b"%0:_ = buf 1\n", Some((8, 0))),
    (b"%0:1 = buf %0:_\n", Some((8, 11))),
    (b"%0:1 = buf 1 %0:_\n", Some((7, 13))),
    (b"!0 = attr \"a\" %0:_\n", Some((7, 14))),
    // point 2
    (b"%0:1 = buf 12\n", Some((5, 12))),
    (b"%0:1 = buf %0:1+2\n", Some((5, 15))),
    (b"%0:1 = buf %0*2*3\n", Some((5, 15))),
    (b"%0:1 = inPut \"a\"\n", Some((8, 7))),
    (b"!0 = scope #1.5\n", Some((5, 13))),
    (b"&\"a\":1+2 = io\n", Some((5, 6))),
    (b"&\"a\"+1:2 = io\n", Some((7, 0))),
    (b"&_+3 = io\n", Some((7, 0))),
    (b"%0:1 = X2\n", Some((7, 7))),
    // point 3
    (b"%0:_* = buf 1\n", Some((8, 0))),
    (b"%0:_*65536 = buf 1\n", Some((8, 0))),
    (b"%0+1:_ = buf 1\n", Some((5, 0))),
    (b"%65536:_ = buf 1\n", Some((6, 0))),
    // point 4
    (b"%0:1 = buf [1\n", Some((7, 14))),
    (b"%0:1 = buf [1 ; ]\n", Some((7, 18))),
    (b"%0:1 = buf [1\n%1:1 = buf 0\n", Some((7, 19))),
    (b"%0:1 = buf [1)\n", Some((7, 13))),
    // point 5
    (b"%0 = buf 1\n", Some((7, 0))),
    (b"%0+0:1 = buf 1\n", Some((7, 0))),
    (b"%0:1*1 = buf 1\n", Some((7, 0))),
    (b"&\"a\" = io\n", Some((7, 0))),
    (b"&_:4 = io\n", Some((7, 0))),
    // point 6
    (b"&\"\":1 = io\n", Some((11, 0))),
    (b"&\"\":1 = io 1\n", Some((7, 11))),
    (b"&\"\" = io\n", Some((7, 0))),
    (b"%0:1 = buf &\"\"\n", Some((7, 11))),
    // point 7
    (b"\n \t%0:2 = buf 1\n", Some((12, 3))),
    // point 8
    (b"!0 = scope #0 in = !8 src=!9\n", Some((10, 19))),
    (b"!0 = {!1 !2}\n", Some((10, 6))),
    // point 9
    (b"buf 1\n", Some((7, 0))),
    (b"settle\n", Some((7, 0))),
    (b"%0:1 = buf 1\nset target \"x\"\n", Some((8, 13))),
    (b"%0:1 = io\n", Some((8, 7))),
    (b"!0 = input \"a\"\n", Some((8, 5))),
    (b"%0:1 = \"buf\" 1\n", Some((7, 7))),
    (b"!0 = scope \"a\" foo=!1\n", Some((7, 15))),
    (b"%0:1 = dff 1\n", Some((8, 7))),
    // point 10
    (b"%65536+ = buf 1\n", Some((5, 0))),
    (b"%0:1 = buf 1\"a\"\n", Some((5, 12))),
    (b"%0:1 = buf 1#99999999999\n", Some((5, 12))),
    (b"&\"a\"+65536 = io\n", Some((6, 0))),
    (b"%65536 = buf 1\n", Some((6, 0))),
    // point 11
    (b"%0:1 = input \"a\n", Some((5, 13))),
    (b"%0:1 = input \"a\r\n", Some((5, 13))),
    (b"%0:1 = input \"a;b\"\n", None),
    (b"&\"a\n", Some((5, 0))),
    (b"&\"\\q\":1 = io\n", Some((5, 0))),
    // point 12
    (b"!0 = ident \"a\"\n", Some((7, 14))),
    (b"!0 = scope \"s\"\n!1 = ident \"a\" in=!0 src=!0\n", Some((7, 36))),
    // point 13
    (b"!0 = attr \"a\" X*4\n", Some((7, 14))),
    (b"!0 = attr \"a\" [1]\n", Some((7, 14))),
    // point 14
    (b"%0:1 = foo $\n", Some((8, 7))),
    (b"foo\"\n", Some((7, 0))),
    (b"%0:1 = buf 1 1 $\n", Some((7, 13))),
    (b"set$\n", Some((8, 0))),
    // point 15
    (b"%0:1 = buf 1;c\n", None),
    (b"%0:1=mux[1][0][X]\n", None),
    (b"%0:2 = buf [1;c\n0]\n", None),
    (b"%0:1 = buf[1]%0\n", Some((7, 13))),
    (b"!1 = scope #0\n!0 = scope #0 in\t= !1\n", None),
    (b"!1 = scope #0\n!0 = scope #0 in=\n!1\n", Some((7, 31))),
    // point 16
    (b"%0:1 = buf  \r\n", Some((7, 12))),
    (b"%0:1 = buf ;x\n", Some((7, 11))),
    // point 17
    (b"!0 = {!1,!2}\n", Some((7, 8))),
    (b"%0:1 = buf [[1]]\n", Some((7, 12))),
    // point 18
    (b"%0:1 = bufX\n", Some((5, 10))),
    (b"%0:1 = Buf 1\n", Some((5, 7))),
    (b"%0:1 = buf x\n", Some((7, 11))),
    (b"Xbuf\n", Some((7, 0))),
    // point 19
    (b"%0:1 = buf [%0:65535*65535 %0:65535*65535]\n", Some((12, 0))),
    (b"%0:1 = buf [1 %0+65535:65535*0]\n", Some((14, 14))),
    (b"%0:1 = buf [1 %0:65536*0]\n", Some((6, 14))),
    // point 20
    (b"%0:0 = output \"y\" []\n", Some((12, 0))),
    (b"%0:0 = output \"y\" %9:0\n", Some((12, 0))),
    (b"%0:0 = output \"y\" X*0\n", Some((12, 0))),
    // point 21
    (b"!0 = source \"f\" (#-0 #-0) (#0 #0)\n", None),
    (b"%0:1 = buf %00000000000000000000000+0:01*001\n", None),
    (b"!0 = scope #-2147483649\n", Some((6, 11))),
    // point 22
    (b"&\"a\":0 = io\n", Some((12, 0))),
    (b"%0:65535 = input \"a\"\n", Some((12, 0))),
    (b"%0:257 = adc X*256 X*256 0\n", Some((12, 0))),
    // point 23
    (b"%0:2 = buf 1\n$\n", Some((12, 0))),
    (b"%0:2 = buf 1 $\n", Some((5, 13))),
    (b"%0:1 = buf %9\n%0:1 = buf 1\n", Some((9, 14))),
    // point 24
    (b"%0:2 = buf [%0+1 %7:0*5 %00+0]\n", Some((14, 17))),
    // point 26
    (b"%0:1 = input \"a\"\n%1:0 = output \"a\" %0\n&\"a\":1 = io\n!0 = scope \"a\"\n!1 = scope \"a\"\n", None),
    (b"&\"a\":1 = io\n&\"\\61\":1 = io\n", Some((9, 12))),
    (b"%1:1 = buf 1\n%01:1 = buf 1\n", Some((9, 13))),
    // point 27
    (b"!0 = scope #0\n!1 = {!0 !0}\n", None),
    (b"!0 = scope #0\n!1 = {!0}\n", Some((11, 14))),
    (b"!0 = {}\n", Some((11, 0))),
    (b"!1 = {!0}\n", Some((10, 6))),
    // point 28
    (b"!0 = scope #0 in=!0\n", Some((10, 17))),
    (b"%0:1 = buf 1 !0\n!0 = scope #0\n", Some((10, 13))),
    // point 29
    (b"%0:0 = output \"y\" [%0:0 1]\n", None),
    (b"%0:0 = output \"y\" [1 %0+1:0]\n", Some((14, 21))),
    (b"%0:0 = output \"y\" 1\n%1:1 = buf %0\n", Some((14, 31))),
    // point 30
    (b"!0 = source \"f\" (#1 #9) (#2 #0)\n", None),
    (b"!0 = source \"f\" (#1 #9) (#1 #8)\n", Some((11, 0))),
    (b"!0 = source \"f\" (#1 #-1) (#2 #0)\n", Some((11, 0))),
    // point 31
    (b"%0:1 = input \"\\00\"\n", None),
    (b"!0 = attr \"a\" \"\"\n", None),
    (b"!0 = attr \"\" \"a\"\n", Some((11, 0))),
    // point 32
    (b";\xe2\x82\n", Some((3, 1))),
    (b";\r\xff\n", Some((3, 1))),
    (b"\n\r", Some((3, 1))),
    (b";\xed\xa0\x80\n", Some((3, 1))),
    (b"$ ", Some((4, 2))),
    // point 33
    (b";\x00\x01\x7f\x0b\n", None),
    (b"\xef\xbb\xbf\n", Some((5, 0))),
    // point 34
    (b" \t\n;x\r\n\r\n", None),
    (b"\x0c\n", Some((5, 0))),
    // point 35
    (b"%0:1 = input \"\xc2\x80\"\n", None),
    (b"%0:1 = input \"\x7f\"\n", Some((5, 13))),
    // point 55
    (b"!0 = scope #0\n!1 = {!0 !0}\n!2 = {!0 !1}\n", Some((10, 36))),
    // point 56
    (b"%0:1 = buf [0]*1\n", Some((5, 14))),
    (b"!1*2 = scope #0\n", Some((5, 2))),
    (b"%0:1 = buf %1 + 0\n", Some((5, 14))),
    (b"!0 = scope #+1\n", Some((5, 11))),
    (b"%70000+ = buf 1\n", Some((5, 0))),
    // point 57
    (b"%0:1 = input\"a\"\n", Some((5, 12))),
    (b"%0:1 = buf [0]!1\n", Some((10, 14))),
    (b"!0 = scope \"s\"\n!1 = scope \"a\" in=!0src=!0\n", Some((5, 35))),
    (b"!0 = source \"f\" (#1\n#2) (#3 #4)\n", None),
    (b"!0 = source \"f\" (#1 #2)\n(#3 #4)\n", Some((7, 23))),
    // point 58
    (b"%0:1 = buf 1\n%0:2 = buf 1 !9\n", Some((9, 13))),
];

#[test]
fn decided_points() {
    for &(text, answer) in DECIDED {
        assert_eq!(told(text), answer, "{}", shown(text));
    }
}

#[test]
fn lines_between_yes_and_no() {
    let size = "%0:4 = input \"size\"\n%4:0 = output \"y\" ";
    let lines: &[(String, Told)] = &[
        ("".into(), Some((4, 0))),
        ("\n".into(), None),
        (format!("{size}%0+2:3\n"), Some((14, 38))),
        (format!("{size}%0+1:3\n"), None),
        (format!("{size}[%0+4:0 %0]\n"), None),
        (format!("{size}[%0+5:0 %0]\n"), Some((14, 39))),
        ("%0:1 = buf %0\n".into(), None),
        ("%0:1 = input \"\\5c\"\n".into(), None),
        ("%0:1 = input \"\\5C\"\n".into(), Some((5, 13))),
        ("%0:256 = input \"a\"\n".into(), None),
        ("%0:257 = input \"a\"\n".into(), Some((12, 0))),
    ];
    for (text, answer) in lines {
        assert_eq!(told(text.as_bytes()), *answer, "{text}");
    }
    assert_eq!(read(b"%0:1 = input \"\\5c\"\n").expect("accepted").strings[..2], [b'\\', 0]);
}

#[test]
fn texts_of_the_language_reference() {
    let accepted = "!0 = source \"/home/whitequark/design/top.py\" (#20 #4) (#20 #10)\n!1 = source \"a\" (#0 #0) (#0 #0)\n!10 = scope \"top\"\n!11 = scope \"cpu\" in=!10\n!12 = scope \"alu\" in=!11 src=!0\n!13 = scope \"io\" src=!1\n!14 = scope #0 in=!13\n";
    assert_eq!(told(accepted.as_bytes()), None);
    let twice = format!("{accepted}!14 = scope #1 in=!13 src=!1\n");
    assert_eq!(told(twice.as_bytes()), Some((9, accepted.len() as u64)));
}

#[test]
fn limits_of_room() {
    let repeated = |count: usize, line: &dyn Fn(usize) -> String| (0..count).map(line).collect::<String>();
    let at_limit = |most: usize, line: &dyn Fn(usize) -> String| {
        assert_eq!(told(repeated(most, line).as_bytes()), None);
        let place = repeated(most, line).len() as u64;
        assert_eq!(told(repeated(most + 1, line).as_bytes()), Some((13, place)));
    };
    at_limit(512, &|i| format!("%{i}:1 = input \"{i}\"\n"));
    at_limit(16, &|i| format!("%{i}:256 = input \"{i}\"\n"));
    at_limit(16, &|i| format!("%{i}:0 = output \"{i}\" X*256\n"));
    at_limit(64, &|i| format!("&\"{i}\":256 = io\n"));
    at_limit(512, &|i| format!("!{i} = attr \"a\" {}\n", "X".repeat(100)));
    at_limit(64, &|i| format!("!{i} = scope \"{}\"\n", "\\00".repeat(255)));
    at_limit(16, &|i| format!("%{i}:1 = eq [{0}] [{0}]\n", "%0 ".repeat(128)));
    let set = |size: usize| format!("!0 = scope #0\n!1 = {{{}}}\n", "!0 ".repeat(size));
    assert_eq!(told(set(1_024).as_bytes()), None);
    assert_eq!(told(set(1_025).as_bytes()), Some((13, 14)));
    let named = |size: usize| format!("%0:1 = input \"{}\"\n", "s".repeat(size));
    assert_eq!(told(named(255).as_bytes()), None);
    assert_eq!(told(named(256).as_bytes()), Some((13, 0)));
}

#[test]
fn short_tables_are_refused_and_long_ones_kept_past_their_length() {
    let text = b"%0:1 = input \"a\"\n";
    let mut short = Tables::new();
    short.trits.pop();
    short.rows.fill(7);
    let before = short.clone();
    assert_eq!(read_into(text, &mut short, &mut Work::new()), Err(Refusal { number: 1, place: 0 }));
    assert_eq!(short, before);
    for text in [&text[..], b"", b"$\n"] {
        let mut long = Tables { rows: vec![9; ROWS + 1], strings: vec![9; STRINGS + 1], trits: vec![9; TRITS + 1] };
        let refused = read_into(text, &mut long, &mut Work::new()).is_err();
        assert_eq!([long.rows.pop(), long.strings.pop().map(u32::from), long.trits.pop().map(u32::from)], [Some(9); 3]);
        assert_eq!(long, if refused { Tables::new() } else { read(text).expect("accepted") });
    }
}

#[test]
fn work_serves_again() {
    let (mut tables, mut work) = (Tables::new(), Work::new());
    for _ in 0..2 {
        for &(text, _) in DECIDED {
            let answer = read_into(text, &mut tables, &mut work);
            assert_eq!(answer.err(), read(text).err(), "{}", shown(text));
            assert_eq!(tables, read(text).unwrap_or_default(), "{}", shown(text));
        }
    }
}

#[test]
fn tables_show_the_canonical_text() {
    let pairs = [
        ("\n", "\n"),
        (
            "%9:1 = input \"a\"\n%3:1 = input \"b\"\n%0:2 = adc %9 %3 0\n%7:0 = output \"sum\" [%0+1 %0+0]\n",
            "%0:1 = input \"a\"\n%1:1 = input \"b\"\n%2:2 = adc %0 %1 0\n%4:0 = output \"sum\" %2:2\n",
        ),
        (
            "%5:2 = buf [%5+1 %7:0*5 %05+0] !9\n",
            "refused 10 31",
        ),
        (
            "%5:4 = mux 1 [%8+1:3 %8] [1X*2] !009 ; c\r\n&\"p\\0a\":9 = io\n!9 = attr \"\" \"\"\n",
            "refused 10 32",
        ),
        (
            "!9 = scope #-07\n%5:4 = mux 1 [%8+1:3 %8] [1X*2] !009 ; c\r\n&\"p\\0a\\7e\\22\":9 = io\n!3 = attr \"A\" 01X0\n!1 = attr \"B\" \"\"\n%8:4 = input \"i\"\n!77 = { !3 \n!9 }\n!6 = attr \"C\" #-0\n!8 = source \"f\" (#1 ;\n #2)(#3 #0)\n!10=scope \"z\" in=!9 src = !8\n!11 = scope #5 src=!8\n!12 = ident \"w\" in=!11\n%6:0 = output \"i\" [%8+3 %8+2 %8+2 %8+1:1 0 %5:0 1X X*2 %8+1*2 %8] !12\n",
            "!0 = scope #-7\n!1 = attr \"A\" 01X0\n!2 = attr \"B\" \"\"\n!3 = {!1 !0}\n!4 = attr \"C\" #0\n!5 = source \"f\" (#1 #2) (#3 #0)\n!6 = scope \"z\" in=!0 src=!5\n!7 = scope #5 src=!5\n!8 = ident \"w\" in=!7\n&\"p\\0a~\\22\":9 = io\n%0:4 = mux 1 %4:4 1X1X !0\n%4:4 = input \"i\"\n%8:0 = output \"i\" [%4+2:2 %4+1:2 01XXX %4+1 %4+0:2] !8\n",
        ),
    ];
    for (text, expected) in pairs {
        match read(text.as_bytes()) {
            Ok(tables) => {
                let printed = canonical(&tables);
                assert_eq!(printed, expected);
                assert_eq!(read(printed.as_bytes()), Ok(tables), "read back");
            }
            Err(refusal) => assert_eq!(format!("refused {} {}", refusal.number, refusal.place), expected),
        }
    }
}

/// Every word, byte and trit of a small netlist, by the pages of `docs/LAYOUT.md`.
#[test]
fn every_place_of_a_small_netlist() {
    let text = b"%7:2 = input \"\\41b\"\n!5 = attr \"k\" 1X\n&\"p\":3 = io\n!9 = scope #-1\n%0:2 = and [X 0] %7:2 !9\n!2 = {!5 !9 !5}\n!6 = attr \"m\" \"v\"\n!1 = source \"f\" (#1 #2) (#3 #0)\n!3 = ident \"i\" in=!9\n%1:0 = output \"o\" [1 %0+1 %0]\n";
    let mut expected = Tables::new();
    expected.rows[..3].copy_from_slice(&[6, 1, 3]);
    let metas: [[u32; 16]; 6] = [
        [6, 0, 1, 1, 0, 0, 0, 0, 2, 0, 0, 0, 0, 0, 0, 0],
        [4, 1, 0, 1, 0, 0, 0, 2, 0, 0, 0, u32::MAX, 0, 0, 0, 0],
        [1, 1, 0, 1, 0, 0, 3, 2, 0, 0, 0, 0, 0, 0, 0, 0],
        [8, 1, 1, 2, 1, 3, 0, 2, 0, 0, 0, 0, 0, 0, 0, 0],
        [2, 3, 1, 4, 0, 3, 0, 2, 0, 0, 0, 0, 1, 2, 3, 0],
        [5, 4, 1, 5, 0, 3, 0, 2, 0, 2, 0, 0, 0, 0, 0, 0],
    ];
    for (row, words) in metas.iter().enumerate() {
        expected.rows[3 + 16 * row..19 + 16 * row].copy_from_slice(words);
    }
    expected.rows[8_195..8_198].copy_from_slice(&[1, 2, 1]);
    expected.rows[9_219..9_222].copy_from_slice(&[5, 1, 3]);
    let cells = [[1, 2, 6, 2, 0, 0, 0, 0, 0], [5, 2, 8, 0, 2, 0, 1, 1, 0], [2, 0, 8, 1, 0, 2, 2, 0, 0]];
    for (row, words) in cells.iter().enumerate() {
        expected.rows[9_411 + 9 * row..9_420 + 9 * row].copy_from_slice(words);
    }
    expected.rows[14_019..14_031].copy_from_slice(&[0, 0, 2, 1, 0, 2, 0, 2, 1, 2, 0, 2]);
    expected.strings[..9].copy_from_slice(b"kmvfipAbo");
    expected.trits[..2].copy_from_slice(&[1, 2]);
    expected.trits[131_072..131_075].copy_from_slice(&[2, 0, 1]);
    assert!(read(text) == Ok(expected), "{:?}", read(text).map(|tables| canonical(&tables)));
}
