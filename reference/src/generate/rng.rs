//! Random numbers from a printed seed: splitmix64.

use crate::bytes::Digest;

#[derive(Clone, Debug)]
pub struct Rng {
    state: u64,
}

impl Rng {
    pub fn new(seed: u64) -> Rng {
        Rng { state: seed }
    }

    pub fn draw(&mut self) -> u64 {
        self.state = self.state.wrapping_add(0x9e37_79b9_7f4a_7c15);
        let mut mixed = self.state;
        mixed = (mixed ^ (mixed >> 30)).wrapping_mul(0xbf58_476d_1ce4_e5b9);
        mixed = (mixed ^ (mixed >> 27)).wrapping_mul(0x94d0_49bb_1331_11eb);
        mixed ^ (mixed >> 31)
    }

    /// A number below the limit, which is at least 1. The slight unevenness does not matter here.
    pub fn below(&mut self, limit: u64) -> u64 {
        self.draw() % limit
    }

    pub fn index(&mut self, limit: usize) -> usize {
        self.below(limit as u64) as usize
    }

    /// True once in so many times.
    pub fn one_in(&mut self, times: u64) -> bool {
        self.below(times) == 0
    }

    pub fn pick<T: Copy>(&mut self, from: &[T]) -> T {
        from[self.index(from.len())]
    }

    /// One of them, or nothing when there is none.
    pub fn pick_any<T: Copy>(&mut self, from: &[T]) -> Option<T> {
        (!from.is_empty()).then(|| self.pick(from))
    }

    pub fn shuffle<T>(&mut self, items: &mut [T]) {
        (1..items.len()).for_each(|last| items.swap(last, self.index(last + 1)));
    }

    pub fn bytes(&mut self, count: usize) -> Vec<u8> {
        (0..count).map(|_| self.draw() as u8).collect()
    }

    /// Any 64-bit number: mostly small, sometimes at the upper end or anywhere.
    pub fn number(&mut self) -> u64 {
        match self.below(12) {
            0 => u64::MAX - self.below(3),
            1 => self.draw(),
            2 => 1 << self.below(64),
            _ => self.below(24),
        }
    }

    pub fn number_from_1(&mut self) -> u64 {
        self.number().max(1)
    }

    /// A number between the two, both included; the two ends come often.
    pub fn between(&mut self, low: u64, high: u64) -> u64 {
        match self.below(4) {
            0 => low,
            1 => high,
            _ => match high.saturating_sub(low).checked_add(1) {
                Some(count) => low + self.below(count),
                None => self.draw(),
            },
        }
    }

    /// Another number: a neighbour, one with a single bit changed, or any.
    pub fn other_than(&mut self, value: u64) -> u64 {
        let other = match self.below(4) {
            0 => value.wrapping_add(1),
            1 => value.wrapping_sub(1),
            2 => value ^ 1 << self.below(64),
            _ => self.number(),
        };
        if other == value {
            !value
        } else {
            other
        }
    }

    pub fn other_u16(&mut self, value: u16) -> u16 {
        value ^ 1 << self.below(16)
    }

    pub fn other_u32(&mut self, value: u32) -> u32 {
        value ^ 1 << self.below(32)
    }

    /// Digests are random, or alike except for few bytes, or zero.
    pub fn digest(&mut self) -> Digest {
        let mut digest = [self.draw() as u8; 32];
        match self.below(8) {
            0 => return [0; 32],
            1 | 2 => digest[self.index(32)] ^= 1,
            3 => {}
            _ => digest.iter_mut().for_each(|byte| *byte = self.draw() as u8),
        }
        digest
    }

    pub fn nonzero_digest(&mut self) -> Digest {
        let mut digest = self.digest();
        if digest == [0; 32] {
            digest[self.index(32)] = 1 << self.below(8);
        }
        digest
    }

    /// The digest with one bit changed.
    pub fn other_digest(&mut self, digest: Digest) -> Digest {
        let mut other = digest;
        other[self.index(32)] ^= 1 << self.below(8);
        other
    }
}
