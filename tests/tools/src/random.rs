//! Random numbers that a seed repeats: splitmix64.

use std::env;
use std::time::{SystemTime, UNIX_EPOCH};

/// The seed of a run, which it prints: the environment variable SEED, or else one from the clock.
pub fn seed() -> u64 {
    let seed = match env::var("SEED") {
        Ok(text) => text.parse().expect("SEED is a number"),
        Err(_) => match SystemTime::now().duration_since(UNIX_EPOCH) {
            Ok(time) => time.as_nanos() as u64,
            Err(_) => 1,
        },
    };
    println!("seed {seed}");
    seed
}

pub struct Random {
    state: u64,
}

impl Random {
    pub fn new(seed: u64) -> Random {
        Random { state: seed }
    }

    pub fn next(&mut self) -> u64 {
        self.state = self.state.wrapping_add(0x9e37_79b9_7f4a_7c15);
        let mut mixed = self.state;
        mixed = (mixed ^ mixed >> 30).wrapping_mul(0xbf58_476d_1ce4_e5b9);
        mixed = (mixed ^ mixed >> 27).wrapping_mul(0x94d0_49bb_1331_11eb);
        mixed ^ mixed >> 31
    }

    pub fn byte(&mut self) -> u8 {
        self.next() as u8
    }

    pub fn word(&mut self) -> u32 {
        self.next() as u32
    }

    /// A number under the limit, which isn't 0.
    pub fn below(&mut self, limit: usize) -> usize {
        (self.next() % limit as u64) as usize
    }

    /// A number from `low` to `high`, both included.
    pub fn between(&mut self, low: usize, high: usize) -> usize {
        low + self.below(high - low + 1)
    }

    /// True so many times in a hundred.
    pub fn percent(&mut self, times: usize) -> bool {
        self.below(100) < times
    }

    /// True once in so many times.
    pub fn one_in(&mut self, times: usize) -> bool {
        self.below(times) == 0
    }

    pub fn pick<T: Copy>(&mut self, from: &[T]) -> T {
        from[self.below(from.len())]
    }

    /// One of these, each as often as its weight says.
    pub fn weighed<T: Copy>(&mut self, from: &[(usize, T)]) -> T {
        let total = from.iter().map(|(weight, _)| weight).sum();
        let mut left = self.below(total);
        for (weight, item) in from {
            if left < *weight {
                return *item;
            }
            left -= weight;
        }
        unreachable!("below the total")
    }

    /// Puts random bytes into all of the slice.
    pub fn fill(&mut self, bytes: &mut [u8]) {
        for chunk in bytes.chunks_mut(8) {
            let next = self.next().to_le_bytes();
            chunk.copy_from_slice(&next[..chunk.len()]);
        }
    }

    pub fn bytes(&mut self, size: usize) -> Vec<u8> {
        let mut bytes = vec![0; size];
        self.fill(&mut bytes);
        bytes
    }

    /// A number of that many bytes: any, 0, a small one, or one near the largest.
    pub fn number(&mut self, size: usize) -> u64 {
        let largest = u64::MAX >> (64 - 8 * size);
        match self.below(6) {
            0 => 0,
            1 => self.below(40) as u64,
            2 => largest - self.below(3) as u64,
            _ => self.next() & largest,
        }
    }

    /// A number at or beside a power of two, or any.
    pub fn near_power(&mut self) -> u64 {
        let power = 1u64 << self.below(64);
        match self.below(5) {
            0 => power,
            1 => power - 1,
            2 => power + 1,
            3 => power.wrapping_neg(),
            _ => self.next(),
        }
    }
}
