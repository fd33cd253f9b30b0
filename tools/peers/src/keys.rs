//! The keys of the measurements, records of them, and std's sets of both.

use std::collections::HashSet;
use std::hash::{BuildHasherDefault, Hash, Hasher};

pub const COUNT: u64 = 1_000_000;

const MIXING_FACTOR: u64 = 0xC0AC_29B7_C97C_50DD;

pub fn hash_number(number: u64) -> u64 {
    let product = (number ^ MIXING_FACTOR) as u128 * MIXING_FACTOR as u128;
    product as u64 ^ (product >> 64) as u64
}

pub fn spread(index: u64) -> u64 {
    let z = index.wrapping_add(0x9E37_79B9_7F4A_7C15);
    let z = (z ^ (z >> 30)).wrapping_mul(0xBF58_476D_1CE4_E5B9);
    let z = (z ^ (z >> 27)).wrapping_mul(0x94D0_49BB_1331_11EB);
    z ^ (z >> 31)
}

/// The step of a row of keys, whose low bits are all 0.
pub const STEP: u64 = 1 << 16;

/// The order of look-ups of so many keys.
pub fn turn_of(index: u64, keys: u64) -> u64 {
    (index * 618_033 + 12_345) % keys
}

#[derive(Default)]
pub struct Stated(u64);

impl Hasher for Stated {
    fn finish(&self) -> u64 {
        self.0
    }
    fn write(&mut self, _: &[u8]) {
        unreachable!()
    }
    fn write_u64(&mut self, number: u64) {
        self.0 = hash_number(number);
    }
}

pub type ByStated = BuildHasherDefault<Stated>;
pub type StdSet = HashSet<Box<u64>, ByStated>;
pub type PlainSet = HashSet<u64, ByStated>;
pub type RecordSet = HashSet<Record, ByStated>;

/// A record of 24 bytes. Two are equal if their keys are, and the other two numbers follow from the key.
pub struct Record {
    key: u64,
    next: u64,
    inverse: u64,
}

impl Record {
    pub fn of(key: u64) -> Self {
        Record { key, next: key.wrapping_add(1), inverse: !key }
    }

    /// What a record of this key is sought by.
    pub fn sought(key: u64) -> Self {
        Record { key, next: 0, inverse: 0 }
    }

    pub fn is_of(&self, key: u64) -> bool {
        self.next == key.wrapping_add(1) && self.inverse == !key
    }
}

impl PartialEq for Record {
    fn eq(&self, other: &Self) -> bool {
        self.key == other.key
    }
}

impl Eq for Record {}

impl Hash for Record {
    fn hash<H: Hasher>(&self, state: &mut H) {
        state.write_u64(self.key);
    }
}
