//! Random numbers from a seed (splitmix64).

use std::io::Write;
use std::time::{SystemTime, UNIX_EPOCH};

pub struct Random {
    state: u64,
}

impl Random {
    pub fn new(seed: u64) -> Random {
        Random { state: seed }
    }

    pub fn next_u64(&mut self) -> u64 {
        self.state = self.state.wrapping_add(0x9e37_79b9_7f4a_7c15);
        let mut z = self.state;
        z = (z ^ (z >> 30)).wrapping_mul(0xbf58_476d_1ce4_e5b9);
        z = (z ^ (z >> 27)).wrapping_mul(0x94d0_49bb_1331_11eb);
        z ^ (z >> 31)
    }

    pub fn below(&mut self, bound: usize) -> usize {
        (self.next_u64() % bound as u64) as usize
    }

    /// From low to high, both included.
    pub fn between(&mut self, low: i64, high: i64) -> i64 {
        low + (self.next_u64() % (high - low + 1) as u64) as i64
    }

    /// True once in so many times.
    pub fn once_in(&mut self, times: usize) -> bool {
        self.below(times) == 0
    }

    /// From 0 to 1.
    pub fn fraction(&mut self) -> f64 {
        (self.next_u64() >> 11) as f64 / (1u64 << 53) as f64
    }

    pub fn one_of<T: Copy>(&mut self, list: &[T]) -> T {
        list[self.below(list.len())]
    }

    pub fn shuffle<T>(&mut self, list: &mut [T]) {
        for i in (1..list.len()).rev() {
            list.swap(i, self.below(i + 1));
        }
    }
}

/// A fixed seed and one that is new in each run, or the one in OUTSIDE_TESTS_SEED. The new one is
/// printed past the test harness, which keeps the output of a test that passes.
pub fn seeds(subject: &str) -> [u64; 2] {
    let fresh = match std::env::var("OUTSIDE_TESTS_SEED") {
        Ok(text) => text.parse().expect("OUTSIDE_TESTS_SEED is a decimal number"),
        Err(_) => {
            let since = SystemTime::now().duration_since(UNIX_EPOCH).expect("a clock after 1970");
            Random::new(since.as_nanos() as u64).next_u64() >> 16
        }
    };
    let _ = writeln!(std::io::stdout(), "{subject}: OUTSIDE_TESTS_SEED={fresh}");
    [1, fresh]
}
