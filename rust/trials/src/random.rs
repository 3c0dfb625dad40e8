//! A seeded generator (Marsaglia's xorshift64*), so that every run tries the same inputs.

use lomvuze_reference::field::{Element, ONE, P};

pub struct Random(u64);

impl Random {
    pub fn new(seed: u64) -> Random {
        Random(seed.wrapping_mul(2).wrapping_add(0x9e3779b97f4a7c15) | 1)
    }

    pub fn bits(&mut self) -> u64 {
        self.0 ^= self.0 >> 12;
        self.0 ^= self.0 << 25;
        self.0 ^= self.0 >> 27;
        self.0.wrapping_mul(0x2545f4914f6cdd1d)
    }

    /// A number below n.
    pub fn below(&mut self, n: usize) -> usize {
        (((self.bits() >> 32) * n as u64) >> 32) as usize
    }

    /// Any number of 32 bits; every fourth lies near 0, near p or near 2^32.
    pub fn number(&mut self) -> u32 {
        let near = self.below(4) as u32;
        match self.below(12) {
            0 => near,
            1 => P - 2 + near,
            2 => u32::MAX - near,
            _ => (self.bits() >> 32) as u32,
        }
    }

    pub fn element(&mut self) -> Element {
        Element::reduce(self.number() as u64)
    }

    pub fn elements(&mut self, count: usize) -> Vec<Element> {
        (0..count).map(|_| self.element()).collect()
    }

    /// Public inputs of an item: elements of which the first is 1.
    pub fn inputs(&mut self, count: usize) -> Vec<Element> {
        [vec![ONE], self.elements(count - 1)].concat()
    }

    pub fn bytes(&mut self, count: usize) -> Vec<u8> {
        (0..count).map(|_| (self.bits() >> 56) as u8).collect()
    }

    pub fn digest(&mut self) -> [u8; 32] {
        self.bytes(32).try_into().unwrap()
    }
}
