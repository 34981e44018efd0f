//! Strings as they stand in the text: where one begins, how many bytes it denotes, which bytes, and which names are taken.

/// A string of the text: the place of its first byte behind the quote, and the number of bytes it denotes.
#[derive(Clone, Copy, Debug, Default)]
pub(super) struct Name {
    pub place: usize,
    pub size: usize,
}

impl Name {
    /// The bytes denoted, one by one. No raw byte of a good string is a quote, so the quote ends it.
    fn bytes(self, text: &[u8]) -> impl Iterator<Item = u8> + '_ {
        let mut rest = text[self.place..].iter();
        std::iter::from_fn(move || match rest.next()? {
            b'"' => None,
            b'\\' => Some(16 * value(*rest.next()?) + value(*rest.next()?)),
            byte => Some(*byte),
        })
    }

    /// Writes the bytes denoted; `to` is as long as they are.
    pub fn write(self, text: &[u8], to: &mut [u8]) {
        let raw = &text[self.place..self.place + self.size];
        if raw.contains(&b'\\') {
            for (to, byte) in to.iter_mut().zip(self.bytes(text)) {
                *to = byte;
            }
        } else {
            to.copy_from_slice(raw);
        }
    }

    fn hash(self, text: &[u8]) -> u32 {
        self.bytes(text).fold(0x811c_9dc5, |hash, byte| (hash ^ u32::from(byte)).wrapping_mul(0x0100_0193))
    }
}

/// The value of a hexadecimal digit.
fn value(digit: u8) -> u8 {
    match digit {
        b'a'..=b'f' => digit - b'a' + 10,
        _ => digit - b'0',
    }
}

/// Names that are taken, found by their decoded bytes. There are at most 513 of them, so the table is never more than half full.
#[derive(Clone, Debug)]
pub(super) struct Names {
    /// Hash, and place plus one; 0 where the slot is free.
    slots: Vec<(u32, u32)>,
}

const SLOTS: usize = 2_048;

impl Names {
    pub fn new() -> Names {
        Names { slots: vec![(0, 0); SLOTS] }
    }

    pub fn clear(&mut self) {
        self.slots.fill((0, 0));
    }

    /// Takes the name; false if it was taken before.
    pub fn take(&mut self, text: &[u8], name: Name) -> bool {
        let hash = name.hash(text);
        let mut slot = hash as usize % SLOTS;
        while self.slots[slot].1 != 0 {
            let (other, place) = self.slots[slot];
            let there = Name { place: place as usize - 1, size: name.size };
            if other == hash && there.bytes(text).eq(name.bytes(text)) {
                return false;
            }
            slot = (slot + 1) % SLOTS;
        }
        self.slots[slot] = (hash, name.place as u32 + 1);
        true
    }
}
