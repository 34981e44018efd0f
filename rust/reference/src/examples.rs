//! Examples of the documents and of `docs/DECISIONS.md` that the text layer alone decides, and the numbers of some tokens.

use super::*;

fn refused(text: &[u8]) -> (u32, u64) {
    let refusal = tokens(text).expect_err(&format!("refused: {:?}", String::from_utf8_lossy(text)));
    (refusal.number, refusal.place)
}

#[test]
fn texts_refused_as_a_whole() {
    assert_eq!(refused(b""), (4, 0));
    assert_eq!(refused(b"$ "), (4, 2));
    assert_eq!(refused(b";\xe2\x82\n"), (3, 1));
    assert_eq!(refused(b";\r\xff\n"), (3, 1));
    assert_eq!(refused(b"\n\r"), (3, 1));
    assert_eq!(refused(b";\xed\xa0\x80\n"), (3, 1));
    assert_eq!(refused(b";\xc0\x80\n"), (3, 1));
    assert_eq!(refused(b";\xf4\x90\x80\x80\n"), (3, 1));
    assert_eq!(refused(&[b'\n'; LONGEST + 1]), (2, 65_536));
    assert_eq!(refused(&[0xff; LONGEST + 1]), (2, 65_536));
    assert_eq!(tokens(&[b'\n'; LONGEST]), Ok(65_536));
}

#[test]
fn malformed_tokens() {
    let examples: &[(&[u8], u64)] = &[
        (b"%0:1 = buf 12\n", 12),
        (b"%0:1 = buf %0:1+2\n", 15),
        (b"%0:1 = buf %0*2*3\n", 15),
        (b"%0:1 = inPut \"a\"\n", 9),
        (b"!0 = scope #1.5\n", 13),
        (b"&\"a\":1+2 = io\n", 6),
        (b"&\"a\"+1:2 = io\n", 6),
        (b"&_+3 = io\n", 2),
        (b"%0:1 = X2\n", 8),
        (b"%0:_* = buf 1\n", 4),
        (b"%0+1:_ = buf 1\n", 0),
        (b"%65536+ = buf 1\n", 0),
        (b"%0:1 = buf 1\"a\"\n", 12),
        (b"%0:1 = buf 1#99999999999\n", 12),
        (b"%0:1 = input \"a\n", 13),
        (b"%0:1 = input \"a\r\n", 13),
        (b"&\"a\n", 0),
        (b"&\"\\q\":1 = io\n", 0),
        (b"%0:1 = foo $\n", 11),
        (b"foo\"\n", 3),
        (b"set$\n", 3),
        (b"%0:1 = bufX\n", 10),
        (b"%0:1 = Buf 1\n", 7),
        (b"Xbuf\n", 1),
        (b"\xef\xbb\xbf\n", 0),
        (b"\x0c\n", 0),
        (b"%0:1 = input \"\x7f\"\n", 13),
        (b"%0:1 = input \"\\5C\"\n", 13),
        (b"%0:1 = buf [0]*1\n", 14),
        (b"!1*2 = scope #0\n", 2),
        (b"%0:1 = buf %1 + 0\n", 14),
        (b"!0 = scope #+1\n", 11),
        (b"%70000+ = buf 1\n", 0),
        (b"%0:1 = input\"a\"\n", 12),
        (b"!1 = scope \"a\" in=!0src=!0\n", 20),
    ];
    for &(text, place) in examples {
        assert_eq!(refused(text), (5, place), "{:?}", String::from_utf8_lossy(text));
    }
}

#[test]
fn numbers_too_large() {
    let examples: &[(&[u8], u64)] = &[
        (b"%65536:_ = buf 1\n", 0),
        (b"&\"a\"+65536 = io\n", 0),
        (b"%65536 = buf 1\n", 0),
        (b"%0:1 = buf [1 %0:65536*0]\n", 14),
        (b"!0 = scope #-2147483649\n", 11),
        (b"!0 = scope #2147483648\n", 11),
    ];
    for &(text, place) in examples {
        assert_eq!(refused(text), (6, place), "{:?}", String::from_utf8_lossy(text));
    }
}

#[test]
fn texts_of_good_tokens() {
    let examples: &[(&[u8], u64)] = &[
        (b"\n", 1),
        (b" \t\n;x\r\n\r\n", 3),
        (b";\x00\x01\x7f\x0b\n", 1),
        (b"%0:1 = buf 1;c\n", 5),
        (b"%0:1=mux[1][0][X]\n", 13),
        (b"%0:1 = buf[1]%0\n", 8),
        (b"%0:2 = buf [1;c\n0]\n", 9),
        (b"%0:1 = buf 1 1 \n", 6),
        (b"!0 = {!1,!2}\n", 8),
        (b"%0:1 = input \"a;b\"\n", 5),
        (b"%0:1 = input \"\\5c\"\n", 5),
        (b"%0:1 = input \"\xc2\x80\"\n", 5),
        (b"%0:1 = buf %00000000000000000000000+0:01*001\n", 5),
        (b"!0 = source \"f\" (#-0 #-0) (#0 #0)\n", 13),
        (b"%0:1 = buf [%0:65535*65535 %0:65535*65535]\n", 8),
        (b"!14 = scope #1 in=!13 src=!2\n", 11),
        (b"[ &\"pin\" &_ &_:16 &\"gpio\"+3 &\"gpio\":8]\n", 8),
    ];
    for &(text, count) in examples {
        assert_eq!(tokens(text), Ok(count), "{:?}", String::from_utf8_lossy(text));
    }
}

#[test]
fn numbers_of_tokens() {
    let kind = |text: &str| Reader::new(text.as_bytes()).next_token().ok().flatten().map(|token| (token.end, token.kind));
    let cell = |offset, width, times| Kind::Cell { index: 7, offset, width, times };
    assert_eq!(kind("%7\n"), Some((2, cell(None, None, None))));
    assert_eq!(kind("%07+65535:12*3\n"), Some((14, cell(Some(65_535), Some(12), Some(3)))));
    assert_eq!(kind("%7:_*\n"), Some((4, Kind::Placeholder { index: 7 })));
    assert_eq!(kind("1X0*04\n"), Some((6, Kind::Constant { trits: 3, times: Some(4) })));
    assert_eq!(kind("#-2147483648\n"), Some((12, Kind::Decimal(i32::MIN))));
    assert_eq!(kind("#2147483647\n"), Some((11, Kind::Decimal(i32::MAX))));
    assert_eq!(kind("#-0\n"), Some((3, Kind::Decimal(0))));
    assert_eq!(kind("\"this\\0ais\"\n"), Some((11, Kind::Text { size: 7 })));
    assert_eq!(kind("&\"gpio\":8\n"), Some((9, Kind::Io { name: Some(4), offset: None, width: Some(8) })));
    assert_eq!(kind("&\"gpio\"+3:8\n"), Some((9, Kind::Io { name: Some(4), offset: Some(3), width: None })));
    assert_eq!(kind("&_:16\n"), Some((5, Kind::Io { name: None, offset: None, width: Some(16) })));
    assert_eq!(kind("!0015\n"), Some((5, Kind::Meta(15))));
}
