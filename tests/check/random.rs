//! Random numbers that a seed repeats.

use crate::model::plan::LONGEST_FRAME;

pub struct Random(u64);

impl Random {
    pub fn new(seed: u64) -> Random {
        Random(seed)
    }

    /// SplitMix64.
    pub fn next(&mut self) -> u64 {
        self.0 = self.0.wrapping_add(0x9E37_79B9_7F4A_7C15);
        let mut mixed = self.0;
        mixed = (mixed ^ (mixed >> 30)).wrapping_mul(0xBF58_476D_1CE4_E5B9);
        mixed = (mixed ^ (mixed >> 27)).wrapping_mul(0x94D0_49BB_1331_11EB);
        mixed ^ (mixed >> 31)
    }

    pub fn below(&mut self, bound: usize) -> usize {
        ((u128::from(self.next()) * bound as u128) >> 64) as usize
    }

    /// Both ends included.
    pub fn within(&mut self, low: usize, high: usize) -> usize {
        low + self.below(high - low + 1)
    }

    pub fn one_in(&mut self, odds: usize) -> bool {
        self.below(odds) == 0
    }

    pub fn flip(&mut self) -> bool {
        self.one_in(2)
    }

    pub fn pick<T: Copy>(&mut self, list: &[T]) -> T {
        list[self.below(list.len())]
    }

    /// Any cell, the edges more often.
    pub fn cell(&mut self) -> u32 {
        if self.one_in(16) {
            self.pick(&[0, 1, u32::MAX])
        } else {
            self.next() as u32
        }
    }

    /// A frame length of a plan.
    pub fn frame(&mut self) -> u32 {
        self.within(1, LONGEST_FRAME as usize) as u32
    }

    /// Any period number, those near 0 and those near 2^32 more often.
    pub fn period(&mut self) -> u32 {
        match self.below(4) {
            0 => self.below(20) as u32,
            1 => u32::MAX - self.below(20) as u32,
            _ => self.next() as u32,
        }
    }

    pub fn cells(&mut self, length: usize) -> Vec<u32> {
        (0..length).map(|_| self.next() as u32).collect()
    }

    pub fn rates(&mut self, length: usize, most: u16) -> Vec<u16> {
        (0..length).map(|_| self.below(usize::from(most) + 1) as u16).collect()
    }
}
