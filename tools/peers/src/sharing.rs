//! Sets of numbers that threads share, and that a user would take instead: by the workloads of `tool_checks bench`.

use crate::keys::{spread, turn_of, Record, RecordSet, StdSet, COUNT, STEP};
use crate::timing::{resident_bytes, time, time_of};
use std::hint::black_box;
use std::sync::RwLock;
use std::thread;

/// How often each thread inserts the same keys, and how many those are.
const ROUNDS: u64 = 25;
const SAME: u64 = 10_000;
const MOST: u64 = 4;
const ABSENT: u64 = 1 << 40;

/// A set of numbers that threads share.
pub trait Shared: Default + Sync {
    fn insert(&self, number: u64) -> bool;
    fn has(&self, number: u64) -> bool;
}

impl Shared for RwLock<StdSet> {
    fn insert(&self, number: u64) -> bool {
        self.write().unwrap().insert(Box::new(number))
    }
    fn has(&self, number: u64) -> bool {
        self.read().unwrap().contains(&number)
    }
}

impl Shared for RwLock<RecordSet> {
    fn insert(&self, number: u64) -> bool {
        self.write().unwrap().insert(Record::of(number))
    }
    fn has(&self, number: u64) -> bool {
        self.read().unwrap().get(&Record::sought(number)).is_some_and(|record| record.is_of(number))
    }
}

/// Runs the group of workloads on such a set, and prints a line a measurement.
pub fn measure_set<S: Shared>(name: &str, group: &str) {
    match group {
        "one" => measure_one::<S>(name),
        "seq" => {
            let set = S::default();
            time(name, "seq_ins1", || (0..COUNT).for_each(|i| assert!(black_box(set.insert(i)))));
            time(name, "seq_hit1", || (0..COUNT).for_each(|i| assert!(set.has(turn_of(i, COUNT)))));
        }
        "step" => {
            let set = S::default();
            time(name, "step_ins1", || (0..COUNT).for_each(|i| assert!(black_box(set.insert(i * STEP)))));
            time(name, "step_hit1", || (0..COUNT).for_each(|i| assert!(set.has(turn_of(i, COUNT) * STEP))));
        }
        "same" => (1..=MOST).for_each(|threads| measure_same::<S>(name, threads)),
        "ins" => (1..=MOST).for_each(|threads| measure_inserts::<S>(name, threads)),
        "hit" => (1..=MOST).for_each(|threads| measure_hits::<S>(name, threads)),
        "1e4" => measure_size::<S>(name, group, 10_000, 100),
        "1e5" => measure_size::<S>(name, group, 100_000, 10),
        "1e7" => measure_size::<S>(name, group, 10_000_000, 1),
        "1e8" => measure_largest::<S>(name),
        _ => {}
    }
}

fn measure_one<S: Shared>(name: &str) {
    let before = resident_bytes();
    let set = S::default();
    time(name, "a_ins1", || insert_all(&set, 0, COUNT));
    println!("{name} g_rss {:.2}", (resident_bytes() - before) as f64 / COUNT as f64);
    time(name, "b_hit1", || (0..COUNT).for_each(|i| assert!(set.has(spread(turn_of(i, COUNT))))));
    time(name, "c_miss1", || (0..COUNT).for_each(|i| assert!(!set.has(spread(turn_of(i, COUNT) + ABSENT)))));
}

/// Inserts so many spread keys from this one on.
fn insert_all<S: Shared>(set: &S, from: u64, count: u64) {
    for index in from..from + count {
        assert!(black_box(set.insert(spread(index))));
    }
}

/// Runs the work in so many threads, each with its number.
fn in_threads(threads: u64, work: impl Fn(u64) + Sync) {
    thread::scope(|scope| {
        for worker in 0..threads {
            let work = &work;
            scope.spawn(move || work(worker));
        }
    });
}

fn measure_same<S: Shared>(name: &str, threads: u64) {
    let set = S::default();
    time_of(name, &format!("d_same{threads}"), ROUNDS * SAME * threads, || {
        in_threads(threads, |_| {
            for _ in 0..ROUNDS {
                (0..SAME).for_each(|i| {
                    black_box(set.insert(spread(i)));
                });
            }
        });
    });
}

fn measure_inserts<S: Shared>(name: &str, threads: u64) {
    let set = S::default();
    let part = COUNT / threads;
    time_of(name, &format!("e_ins{threads}"), part * threads, || {
        in_threads(threads, |worker| insert_all(&set, part * worker, part));
    });
}

fn measure_hits<S: Shared>(name: &str, threads: u64) {
    let set = S::default();
    insert_all(&set, 0, COUNT);
    time_of(name, &format!("f_hit{threads}"), COUNT * threads, || {
        in_threads(threads, |worker| {
            let start = COUNT / threads * worker;
            (0..COUNT).for_each(|i| assert!(set.has(spread(turn_of((i + start) % COUNT, COUNT)))));
        });
    });
}

/// So many keys a set: inserts into so many sets, then hits and misses of one, over all its keys as often.
fn measure_size<S: Shared>(name: &str, size: &str, keys: u64, rounds: u64) {
    let operations = keys * rounds;
    time_of(name, &format!("ins_{size}"), operations, || {
        (0..rounds).for_each(|_| insert_all(&S::default(), 0, keys));
    });
    let set = S::default();
    insert_all(&set, 0, keys);
    let look = |further: u64, is_there: bool| {
        for _ in 0..rounds {
            (0..keys).for_each(|i| assert_eq!(set.has(spread(turn_of(i, keys) + further)), is_there));
        }
    };
    time_of(name, &format!("hit_{size}"), operations, || look(0, true));
    time_of(name, &format!("miss_{size}"), operations, || look(ABSENT, false));
}

/// A hundred million keys in one set, which is made once.
const LARGEST: u64 = 100_000_000;

fn measure_largest<S: Shared>(name: &str) {
    let before = resident_bytes();
    let set = S::default();
    time_of(name, "ins_1e8", LARGEST, || insert_all(&set, 0, LARGEST));
    println!("{name} rss_1e8 {:.2}", (resident_bytes() - before) as f64 / LARGEST as f64);
    let look = |further: u64, is_there: bool| {
        (0..LARGEST).for_each(|i| assert_eq!(set.has(spread(turn_of(i, LARGEST) + further)), is_there));
    };
    time_of(name, "hit_1e8", LARGEST, || look(0, true));
    time_of(name, "miss_1e8", LARGEST, || look(ABSENT, false));
}
