//! Interners that threads share, by the workloads of `tool_checks bench texts-shared-interner`, and one that a user would write: std's map and a
//! list, behind a lock.

use crate::keys::{hash_number, spread, turn_of, COUNT};
use crate::timing::{resident_bytes, time_of};
use std::collections::HashMap;
use std::hash::{BuildHasherDefault, Hasher};
use std::hint::black_box;
use std::sync::atomic::{AtomicU64, Ordering::SeqCst};
use std::sync::RwLock;
use std::thread;

/// The bytes of the texts name0 to name999999.
const TEXT_BYTES: u64 = 9_888_890;
const WORDS: u64 = 50_000;
const MOST: u64 = 4;
const FACTOR: u64 = 0xC0AC_29B7_C97C_50DD;

/// The proved tables' hash of texts.
#[derive(Default)]
pub struct TextHasher(u64);

impl Hasher for TextHasher {
    fn finish(&self) -> u64 {
        hash_number(self.0)
    }
    fn write(&mut self, bytes: &[u8]) {
        for byte in bytes {
            self.0 = self.0.wrapping_add(u64::from(*byte) + 1).wrapping_mul(FACTOR);
        }
    }
    fn write_u8(&mut self, _end_of_text: u8) {}
    fn write_u32(&mut self, number: u32) {
        self.0 = u64::from(number);
    }
}

pub type ByText = BuildHasherDefault<TextHasher>;

/// An interner that threads share.
pub trait Texts: Default + Sync {
    /// What stands for a text.
    type Name: PartialEq + Send + Sync;

    fn name_of(&self, text: &str) -> Self::Name;
    fn is_text(&self, name: &Self::Name, text: &str) -> bool;
    /// How many texts there are, where the interner tells it.
    fn count(&self) -> Option<u64>;
}

/// The text for as long as the process runs, as an interner that is never dropped keeps it.
pub fn kept(text: &str) -> &'static str {
    Box::leak(Box::<str>::from(text))
}

#[derive(Default)]
pub struct Locked {
    by_text: HashMap<&'static str, u32, ByText>,
    by_number: Vec<&'static str>,
}

impl Locked {
    /// The number of the text, which another thread may have added before this one had the lock.
    fn add(&mut self, text: &str) -> u32 {
        if let Some(number) = self.by_text.get(text) {
            return *number;
        }
        let number = u32::try_from(self.by_number.len()).unwrap();
        let text = kept(text);
        self.by_number.push(text);
        self.by_text.insert(text, number);
        number
    }
}

impl Texts for RwLock<Locked> {
    type Name = u32;

    fn name_of(&self, text: &str) -> u32 {
        let found = self.read().unwrap().by_text.get(text).copied();
        found.unwrap_or_else(|| self.write().unwrap().add(text))
    }
    fn is_text(&self, number: &u32, text: &str) -> bool {
        self.read().unwrap().by_number.get(*number as usize).is_some_and(|entry| *entry == text)
    }
    fn count(&self) -> Option<u64> {
        Some(self.read().unwrap().by_number.len() as u64)
    }
}

/// Runs the group of workloads on such an interner, and prints a line a measurement.
pub fn measure_texts<T: Texts>(name: &str, group: &str) {
    match group {
        "txt" => measure_names::<T>(name, 1),
        "txt4" => measure_names::<T>(name, MOST),
        "words" => {
            measure_words::<T>(name, 1);
            measure_words::<T>(name, MOST);
        }
        _ => {}
    }
}

/// How many of the calls of so many threads come out as they should. Each thread begins a part further on than the one before.
fn count_by(threads: u64, count: impl Fn(u64) -> u64 + Sync) -> u64 {
    let sum = AtomicU64::new(0);
    thread::scope(|scope| {
        for worker in 0..threads {
            let (count, sum) = (&count, &sum);
            scope.spawn(move || sum.fetch_add(count(COUNT / threads * worker), SeqCst));
        }
    });
    sum.into_inner()
}

/// How many of all places, in an order that begins here, the test accepts.
fn count_all(from: u64, test: impl Fn(usize) -> bool) -> u64 {
    (0..COUNT).map(|index| u64::from(test(((from + index) % COUNT) as usize))).sum()
}

/// Names by so many threads: new ones, bytes an entry beside its text, known ones, and texts of names. All are asked for once before that
/// is timed.
fn measure_names<T: Texts>(name: &str, threads: u64) {
    let texts: Vec<String> = (0..COUNT).map(|index| format!("name{index}")).collect();
    let turned: Vec<String> = (0..COUNT).map(|index| format!("name{}", turn_of(index, COUNT))).collect();
    let (part, calls) = (COUNT / threads, COUNT * threads);
    let set = T::default();
    let before = resident_bytes() + TEXT_BYTES;
    let new = |from: u64| {
        (from..from + part).for_each(|index| {
            black_box(set.name_of(&texts[index as usize]));
        });
        part
    };
    time_of(name, &format!("t_new{threads}"), COUNT, || assert_eq!(count_by(threads, new), COUNT));
    assert_eq!(set.count().unwrap_or(COUNT), COUNT);
    println!("{name} t_rss{threads} {:.2}", (resident_bytes() - before) as f64 / COUNT as f64);

    let names: Vec<T::Name> = turned.iter().map(|text| set.name_of(text)).collect();
    let known = |from: u64| count_all(from, |at| set.name_of(&turned[at]) == names[at]);
    let back = |from: u64| count_all(from, |at| set.is_text(&names[at], &turned[at]));
    assert_eq!(count_by(1, back), COUNT);
    time_of(name, &format!("t_known{threads}"), calls, || assert_eq!(count_by(threads, known), calls));
    time_of(name, &format!("t_back{threads}"), calls, || assert_eq!(count_by(threads, back), calls));
}

/// A million words by each of so many threads, in a new interner.
fn measure_words<T: Texts>(name: &str, threads: u64) {
    let words: Vec<String> = (0..WORDS).map(|index| format!("word{index}")).collect();
    let calls = COUNT * threads;
    let set = T::default();
    let named = |from: u64| {
        (from..from + COUNT).for_each(|index| {
            black_box(set.name_of(&words[(spread(index) % WORDS) as usize]));
        });
        COUNT
    };
    time_of(name, &format!("w_name{threads}"), calls, || assert_eq!(count_by(threads, named), calls));
    assert_eq!(set.count().unwrap_or(WORDS), WORDS);
}
