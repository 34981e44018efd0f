//! Texts for the comparison: a small generator of random numbers and netlists of any size.

#![forbid(unsafe_code)]

mod any;
mod full;
mod netlist;
mod wired;

pub use any::{any_netlist, changed};
pub use full::{alike_netlist, full_netlist, pads_netlist, paired_netlist};
pub use netlist::netlist;
pub use wired::{any_wired, turned_netlist, wired_netlist};

use netlist::fill_with_comments;

/// Random numbers by xorshift; the same seed gives the same numbers.
#[derive(Clone, Debug)]
pub struct Random(u64);

impl Random {
    pub fn new(seed: u64) -> Random {
        // the state must not be 0, and nearby seeds should not begin alike
        let mut random = Random(seed.wrapping_mul(0x9e37_79b9_7f4a_7c15) | 1);
        for _ in 0..8 {
            random.bits();
        }
        random
    }

    pub fn bits(&mut self) -> u64 {
        self.0 ^= self.0 << 13;
        self.0 ^= self.0 >> 7;
        self.0 ^= self.0 << 17;
        self.0.wrapping_mul(0x2545_f491_4f6c_dd1d)
    }

    /// A number from 0 up to but not including `end`.
    pub fn below(&mut self, end: usize) -> usize {
        ((self.bits() >> 33) % end as u64) as usize
    }

    /// True once in `times`.
    pub fn once_in(&mut self, times: usize) -> bool {
        self.below(times) == 0
    }

    pub fn pick<T: Copy>(&mut self, from: &[T]) -> T {
        from[self.below(from.len())]
    }
}
