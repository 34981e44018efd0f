//! The netlists of `examples/` do what their first lines say.

use reference::reading::evaluate;
use reference::{read, Tables};

fn example(name: &str) -> Tables {
    let path = format!("{}/../../examples/{name}.ir", env!("CARGO_MANIFEST_DIR"));
    let text = std::fs::read(&path).expect("the example is there");
    read(&text).unwrap_or_else(|refusal| panic!("{name} is refused: {refusal:?}"))
}

/// The bits of numbers of given widths, bit 0 first.
fn bits(numbers: &[(u32, u32)]) -> Vec<u8> {
    let of = |&(n, width): &(u32, u32)| (0..width).map(move |i| (n >> i & 1) as u8);
    numbers.iter().flat_map(of).collect()
}

fn number(bits: &[u8]) -> u32 {
    bits.iter().rev().fold(0, |n, &b| {
        assert!(b < 2, "a bit is X");
        n * 2 + u32::from(b)
    })
}

#[test]
fn adder() {
    let card = example("adder");
    for a in 0..16 {
        for b in 0..16 {
            let sum = evaluate(&card, &bits(&[(a, 4), (b, 4)])).unwrap();
            assert_eq!(number(&sum), a + b);
        }
    }
}

#[test]
fn grading() {
    let card = example("grading");
    for size in 0..256 {
        let chutes = evaluate(&card, &bits(&[(size, 8)])).unwrap();
        let (small, large) = (size < 40, size >= 90);
        assert_eq!(chutes, [small as u8, (!small && !large) as u8, large as u8]);
    }
}

#[test]
fn lanes() {
    let card = example("lanes");
    let weights = [9, 33, 0, 62];
    for lane in 0..4 {
        let mut asked = vec![(lane, 2)];
        asked.extend(weights.map(|w| (w, 6)));
        let shown = evaluate(&card, &bits(&asked)).unwrap();
        assert_eq!(number(&shown), weights[lane as usize]);
    }
}

#[test]
fn ejector() {
    let card = example("ejector");
    for n in 0..128u32 {
        let is = |i: u32| n >> i & 1 == 1;
        let (running, hand, closed) = (is(0), is(1), n >> 2 & 7 == 7);
        let fire = closed && !hand && (running && is(5) || !running && is(6));
        let alarm = running && (!closed || hand);
        let out = evaluate(&card, &bits(&[(n, 7)])).unwrap();
        assert_eq!(out, [fire as u8, alarm as u8], "{n:07b}");
    }
    // nobody knows whether a guard is closed: nothing fires for sure, and nothing is sure to stand still
    assert_eq!(evaluate(&card, &[1, 0, 1, 2, 1, 1, 0]).unwrap(), [2, 2]);
    assert_eq!(evaluate(&card, &[1, 0, 1, 2, 0, 1, 0]).unwrap(), [0, 1]);
}

#[test]
fn segments() {
    let card = example("segments");
    let lit = [0x3f, 0x06, 0x5b, 0x4f, 0x66, 0x6d, 0x7d, 0x07, 0x7f, 0x6f];
    for digit in 0..16u32 {
        let shown = evaluate(&card, &bits(&[(digit, 4)])).unwrap();
        assert_eq!(number(&shown), lit.get(digit as usize).copied().unwrap_or(0));
    }
}

#[test]
fn tare() {
    let card = example("tare");
    let numbers = [-128i32, -100, -1, 0, 1, 27, 64, 127];
    for weight in numbers {
        for tray in numbers {
            let net = (weight - tray) as i8;
            let asked = [(weight as u32, 8), (tray as u32, 8), (-5i32 as u32, 8), (60, 8)];
            let out = evaluate(&card, &bits(&asked)).unwrap();
            assert_eq!(number(&out[..8]) as u8 as i8, net);
            assert_eq!(out[8..], [(net < -5) as u8, (net > 60) as u8]);
        }
    }
}
