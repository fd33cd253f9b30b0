//! The layout of the proved table in plain Rust, to price what the proved one costs.
//!
//! A bucket is two words: the plain part, which holds the name of an entry of an earlier generation and its eight bits,
//! and the block of an own entry. The table is held alone, so no word is atomic and no lock is taken.
//! `steps` is a table that threads share, in the steps of the Rust original. `atomics` has numbers that threads share. `interner` is one
//! over std's map, and `texts` measures interners that threads share.

pub mod atomics;
pub mod interner;
pub mod keys;
pub mod sharing;
pub mod steps;
pub mod texts;
pub mod timing;

struct Block<T> {
    value: Box<T>,
    bits: u8,
}

struct Bucket<T> {
    /// 0, or bits * 2^56 + generation * 2^48 + index + 1.
    name: u64,
    own: Option<Box<Block<T>>>,
}

struct Generation<T> {
    buckets: Vec<Bucket<T>>,
    size: usize,
}

/// An insertion-only set.
pub struct Table<T> {
    generations: Vec<Generation<T>>,
}

enum Seen<'a, T> {
    Vacant,
    Passed,
    Asked(&'a Block<T>),
}

fn bits_of(hash: u64) -> u8 {
    (hash >> 32) as u8
}

impl<T> Generation<T> {
    fn with_capacity(capacity: usize) -> Self {
        let mut buckets = Vec::new();
        buckets.resize_with(capacity, || Bucket { name: 0, own: None });
        Generation { buckets, size: 0 }
    }
}

impl<T> Table<T> {
    pub fn new() -> Self {
        Table { generations: Vec::new() }
    }

    fn named(&self, name: u64) -> &Block<T> {
        let generation = &self.generations[(name >> 48 & 255) as usize];
        let index = (name & ((1 << 48) - 1)) as usize - 1;
        generation.buckets[index].own.as_deref().unwrap()
    }

    fn look(&self, bucket: &Bucket<T>, bits: u8) -> Seen<'_, T> {
        if bucket.name != 0 {
            if (bucket.name >> 56) as u8 != bits {
                return Seen::Passed;
            }
            return Seen::Asked(self.named(bucket.name));
        }
        // The borrow of the bucket is one of the table.
        match bucket.own.as_deref() {
            None => Seen::Vacant,
            Some(block) if block.bits != bits => Seen::Passed,
            Some(block) => Seen::Asked(unsafe { &*(block as *const Block<T>) }),
        }
    }

    /// The index of the entry, or of the bucket where the probe ended.
    fn probe(&self, hash: u64, test: impl Fn(&T) -> bool) -> (usize, Option<&T>) {
        let generation = self.generations.last().unwrap();
        let mask = generation.buckets.len() - 1;
        let mut index = hash as usize & mask;
        loop {
            match self.look(&generation.buckets[index], bits_of(hash)) {
                Seen::Vacant => return (index, None),
                Seen::Asked(block) if test(&block.value) => return (index, Some(&block.value)),
                _ => index = (index + 1) & mask,
            }
        }
    }

    pub fn lookup(&self, hash: u64, test: impl Fn(&T) -> bool) -> Option<&T> {
        if self.generations.is_empty() {
            return None;
        }
        self.probe(hash, test).1
    }

    /// Whether the value was placed.
    pub fn insert(&mut self, hash: u64, value: Box<T>, eq: impl Fn(&T, &T) -> bool, hash_of: impl Fn(&T) -> u64) -> bool {
        if self.generations.is_empty() {
            self.generations.push(Generation::with_capacity(16));
        }
        let (index, found) = self.probe(hash, |entry| eq(&value, entry));
        let placed = found.is_none();
        let generation = self.generations.last_mut().unwrap();
        if placed {
            generation.buckets[index].own = Some(Box::new(Block { value, bits: bits_of(hash) }));
            generation.size += 1;
        }
        if generation.size >= generation.buckets.len() / 2 {
            self.grow(hash_of);
        }
        placed
    }

    fn grow(&mut self, hash_of: impl Fn(&T) -> u64) {
        let last = self.generations.len() - 1;
        let capacity = self.generations[last].buckets.len() * 2;
        let mut grown = Generation::with_capacity(capacity);
        for (index, bucket) in self.generations[last].buckets.iter().enumerate() {
            let (name, block) = match &bucket.own {
                Some(block) => (u64::from(block.bits) << 56 | (last as u64) << 48 | (index as u64 + 1), &**block),
                None if bucket.name != 0 => (bucket.name, self.named(bucket.name)),
                None => continue,
            };
            let mut at = hash_of(&block.value) as usize & (capacity - 1);
            while grown.buckets[at].name != 0 {
                at = (at + 1) & (capacity - 1);
            }
            grown.buckets[at].name = name;
            grown.size += 1;
        }
        self.generations.push(grown);
    }
}

impl<T> Default for Table<T> {
    fn default() -> Self {
        Self::new()
    }
}
