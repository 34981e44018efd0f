//! Trits as bytes, 2 for X, and document 01's gates on them.

pub(super) const X: u8 = 2;

pub(super) fn not(a: u8) -> u8 {
    if a == X {
        X
    } else {
        1 - a
    }
}

pub(super) fn and(a: u8, b: u8) -> u8 {
    if a == 0 || b == 0 {
        0
    } else {
        a.max(b)
    }
}

pub(super) fn or(a: u8, b: u8) -> u8 {
    if a == 1 || b == 1 {
        1
    } else {
        a.max(b)
    }
}

pub(super) fn xor(a: u8, b: u8) -> u8 {
    if a == X || b == X {
        X
    } else {
        a ^ b
    }
}

/// "1 if two or more of the three are 1, 0 if two or more are 0, else X"
pub(super) fn carry(a: u8, b: u8, c: u8) -> u8 {
    if a == b || a == c {
        a
    } else if b == c {
        b
    } else {
        X
    }
}
