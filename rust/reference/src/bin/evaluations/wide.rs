//! Wide cells on settings drawn by chance, worked out by the plain evaluator bit by bit.

use reference::cases::{cell_text, Case};

pub fn all() -> Vec<Case> {
    let mut chance = Chance(1);
    let words = ["buf", "not", "and", "or", "xor", "mux", "adc", "eq", "ult", "slt"];
    words.into_iter().flat_map(|word| [1, 2, 3, 5, 8, 64, 255].map(|width| case(word, width, &mut chance))).collect()
}

struct Chance(u64);

impl Chance {
    fn below(&mut self, limit: u64) -> u64 {
        self.0 = self.0.wrapping_mul(6_364_136_223_846_793_005).wrapping_add(1_442_695_040_888_963_407);
        (self.0 >> 33) % limit
    }

    /// Mostly known bits, so that an X does not decide everything.
    fn bits(&mut self, count: usize) -> String {
        (0..count).map(|_| ['0', '1', 'X'][[0, 0, 0, 0, 1, 1, 1, 1, 2][self.below(9) as usize]]).collect()
    }
}

fn case(word: &str, width: usize, chance: &mut Chance) -> Case {
    let (text, inputs) = cell_text(word, width);
    Case::begins(format!("{} |{text}", chance.bits(inputs)), "")
}
