//! A set that takes the steps of the Rust original, in plain Rust, to stand in for it where its sources aren't at hand. What is known of
//! these docs/DIFFERENCES.md says. The lock is std's, where the original's is parking_lot's.
//!
//! A bucket is one pointer, to the value's own box, and no bits of a hash are kept: what is set is compared. An insert takes the lock
//! shared before it loads the current generation, and sets a bucket by one exchange. Who finds half of the buckets set takes the lock alone,
//! and names each entry in a generation of twice the capacity. The generations before stay.

use crate::keys::hash_number;
use crate::sharing::Shared;
use std::ptr::null_mut;
use std::sync::atomic::{AtomicPtr, AtomicUsize, Ordering::SeqCst};
use std::sync::RwLock;

const FIRST_CAPACITY: usize = 16;

struct Generation {
    buckets: Box<[AtomicPtr<u64>]>,
    size: AtomicUsize,
}

/// What an insert found in a generation.
enum Insertion {
    Placed,
    Found(Box<u64>),
    Full(Box<u64>),
}

impl Generation {
    fn with_capacity(capacity: usize) -> Self {
        let buckets = (0..capacity).map(|_| AtomicPtr::new(null_mut())).collect();
        Generation { buckets, size: AtomicUsize::new(0) }
    }

    /// The buckets in the order of a probe for this hash.
    fn probe(&self, hash: u64) -> impl Iterator<Item = &AtomicPtr<u64>> {
        let buckets = &*self.buckets;
        (0..buckets.len()).map(move |step| &buckets[(hash as usize).wrapping_add(step) & (buckets.len() - 1)])
    }

    fn wants_growth(&self) -> bool {
        self.size.load(SeqCst) >= self.buckets.len() / 2
    }

    fn lookup(&self, hash: u64, is_wanted: impl Fn(&u64) -> bool) -> bool {
        for bucket in self.probe(hash) {
            match unsafe { bucket.load(SeqCst).as_ref() } {
                None => return false,
                Some(entry) if is_wanted(entry) => return true,
                Some(_) => {}
            }
        }
        false
    }

    fn insert(&self, hash: u64, value: Box<u64>, is_same: impl Fn(&u64, &u64) -> bool) -> Insertion {
        let new = Box::into_raw(value);
        for bucket in self.probe(hash) {
            let mut there = bucket.load(SeqCst);
            if there.is_null() {
                match bucket.compare_exchange(null_mut(), new, SeqCst, SeqCst) {
                    Ok(_) => {
                        self.size.fetch_add(1, SeqCst);
                        return Insertion::Placed;
                    }
                    Err(first) => there = first,
                }
            }
            if unsafe { is_same(&*new, &*there) } {
                return Insertion::Found(unsafe { Box::from_raw(new) });
            }
        }
        Insertion::Full(unsafe { Box::from_raw(new) })
    }

    /// Names an entry that is none of this generation, which nobody else sees yet.
    fn name(&mut self, hash: u64, entry: *mut u64) {
        let mask = self.buckets.len() - 1;
        let mut index = hash as usize & mask;
        while !self.buckets[index].get_mut().is_null() {
            index = (index + 1) & mask;
        }
        *self.buckets[index].get_mut() = entry;
        *self.size.get_mut() += 1;
    }
}

/// The set: its current generation, and all of them behind the lock.
#[derive(Default)]
pub struct Steps {
    current: AtomicPtr<Generation>,
    generations: RwLock<Vec<*mut Generation>>,
}

// what the lock keeps are generations that are shared, and freed by the end alone
unsafe impl Sync for Steps {}

impl Steps {
    fn current(&self) -> Option<&Generation> {
        unsafe { self.current.load(SeqCst).as_ref() }
    }

    /// Hands the value back where one that is the same is there.
    fn insert_by(
        &self,
        hash: u64,
        mut value: Box<u64>,
        is_same: impl Fn(&u64, &u64) -> bool,
        hash_of: impl Fn(&u64) -> u64,
    ) -> Option<Box<u64>> {
        loop {
            let shared = self.generations.read().unwrap();
            let Some(generation) = self.current() else {
                drop(shared);
                self.grow(&hash_of);
                continue;
            };
            let insertion = generation.insert(hash, value, &is_same);
            drop(shared);
            let back = match insertion {
                Insertion::Full(unplaced) => {
                    self.grow(&hash_of);
                    value = unplaced;
                    continue;
                }
                Insertion::Found(back) => Some(back),
                Insertion::Placed => None,
            };
            if generation.wants_growth() {
                self.grow(&hash_of);
            }
            return back;
        }
    }

    #[cold]
    fn grow(&self, hash_of: impl Fn(&u64) -> u64) {
        let mut generations = self.generations.write().unwrap();
        let grown = match self.current() {
            None => Generation::with_capacity(FIRST_CAPACITY),
            Some(old) if old.wants_growth() => {
                let mut new = Generation::with_capacity(2 * old.buckets.len());
                for entry in old.buckets.iter().map(|bucket| bucket.load(SeqCst)).filter(|entry| !entry.is_null()) {
                    new.name(hash_of(unsafe { &*entry }), entry);
                }
                new
            }
            Some(_) => return,
        };
        let grown = Box::into_raw(Box::new(grown));
        generations.push(grown);
        self.current.store(grown, SeqCst);
    }
}

impl Drop for Steps {
    /// Frees the entries of the current generation, which has them all, and each generation.
    fn drop(&mut self) {
        if let Some(generation) = self.current() {
            let entries = generation.buckets.iter().map(|bucket| bucket.load(SeqCst));
            entries.filter(|entry| !entry.is_null()).for_each(|entry| drop(unsafe { Box::from_raw(entry) }));
        }
        for generation in self.generations.get_mut().unwrap().drain(..) {
            drop(unsafe { Box::from_raw(generation) });
        }
    }
}

impl Shared for Steps {
    fn insert(&self, number: u64) -> bool {
        self.insert_by(hash_number(number), Box::new(number), |new, entry| new == entry, |entry| hash_number(*entry)).is_none()
    }
    fn has(&self, number: u64) -> bool {
        self.current().is_some_and(|generation| generation.lookup(hash_number(number), |entry| *entry == number))
    }
}
