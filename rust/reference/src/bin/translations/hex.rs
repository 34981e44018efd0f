//! Ways to write lists by hand.

/// "constants 0, 1, X" stand first in every translation.
pub const CONSTANTS: &str = "4753000000000000 4753010000000000 4753020000000000";

/// A list of records written in words, `and 3 4, not 5`, in hex.
pub fn said(records: &str) -> String {
    let words = ["0", "1", "X", "in", "not", "and", "or", "xor", "out"];
    let record = |record: &str| {
        let mut parts = record.split_whitespace();
        let word = parts.next().unwrap_or_default();
        let operation = words.iter().position(|known| *known == word).unwrap_or_else(|| panic!("no operation: {record}"));
        let mut field = || parts.next().map_or(0, |field| field.parse::<u16>().unwrap_or_else(|_| panic!("no field: {record}")));
        let [a, b] = [field(), field()].map(u16::to_le_bytes);
        hex(&[0x47, 0x53, operation as u8, 0, a[0], a[1], b[0], b[1]])
    };
    records.split(',').map(|words| record(words.trim())).collect::<Vec<_>>().join(" ")
}

/// A list in hex, a blank between records.
pub fn hex(list: &[u8]) -> String {
    let record = |record: &[u8]| record.iter().map(|byte| format!("{byte:02x}")).collect::<String>();
    list.chunks(8).map(record).collect::<Vec<_>>().join(" ")
}

/// The bytes that hex says, blanks left out.
pub fn bytes(hex: &[u8]) -> Option<Vec<u8>> {
    let digits: Vec<u8> = hex.iter().copied().filter(|&byte| byte != b' ').collect();
    let pair = |pair: &[u8]| u8::from_str_radix(std::str::from_utf8(pair).ok()?, 16).ok().filter(|_| pair.len() == 2);
    digits.chunks(2).map(pair).collect()
}
