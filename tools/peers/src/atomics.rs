//! Numbers that threads share, in plain Rust: the words and the probe of the proved number table, to price what that one costs.
//! The calls are inlined, as those of the proved table are.

use std::num::NonZeroU64;
use std::sync::atomic::{AtomicU64, Ordering::SeqCst};

#[derive(Clone, Copy, PartialEq, Eq)]
pub enum Answer {
    Placed,
    Found,
    Full,
}

/// A set of numbers other than 0. A word is empty (0) or holds one number for good.
pub struct NumberTable {
    words: Box<[AtomicU64]>,
}

impl NumberTable {
    /// An empty table of `count` words, a power of two. Each word is written, so that its page is there.
    pub fn new(count: usize) -> Self {
        assert!(count.is_power_of_two());
        let words: Box<[AtomicU64]> = (0..count).map(|_| AtomicU64::new(0)).collect();
        words.iter().for_each(|word| word.store(0, SeqCst));
        NumberTable { words }
    }

    /// The number that the word holds, or 0 where x was placed there: a load, and one exchange if the word is empty.
    #[inline]
    fn claim(word: &AtomicU64, x: u64) -> u64 {
        match word.load(SeqCst) {
            0 => word.compare_exchange(0, x, SeqCst, SeqCst).unwrap_or_else(|found| found),
            found => found,
        }
    }

    #[inline]
    pub fn insert(&self, number: NonZeroU64) -> Answer {
        let x = number.get();
        // The words and the mask stand in registers.
        let words = &*self.words;
        let mask = words.len() - 1;
        let mut bucket = x as usize & mask;
        for _ in 0..words.len() {
            match Self::claim(&words[bucket], x) {
                0 => return Answer::Placed,
                found if found == x => return Answer::Found,
                _ => bucket = (bucket + 1) & mask,
            }
        }
        Answer::Full
    }

    #[inline]
    pub fn contains(&self, number: NonZeroU64) -> bool {
        let x = number.get();
        let words = &*self.words;
        let mask = words.len() - 1;
        let mut bucket = x as usize & mask;
        for _ in 0..words.len() {
            match words[bucket].load(SeqCst) {
                0 => return false,
                found if found == x => return true,
                _ => bucket = (bucket + 1) & mask,
            }
        }
        false
    }
}
