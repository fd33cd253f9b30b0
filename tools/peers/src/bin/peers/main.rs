//! The measurements of `tool_checks bench`, on the plain-Rust tables and on std's set.
//!
//!     peers list | peers PEER one | peers PEER seq | peers PEER step | peers plain-atomics same | peers plain-atomics ins |
//!     peers plain-interner 1e4 | 1e5 | 1e6 | peers rwlock-HashSet|records-rwlock|plain-steps
//!     one|seq|step|same|ins|hit|1e4|1e5|1e7|1e8 | peers texts-rwlock txt|txt4|words

mod interner;
mod seats;

use peers::keys::{hash_number, spread, turn_of, PlainSet, Record, RecordSet, StdSet, COUNT, STEP};
use peers::sharing::measure_set;
use peers::steps::Steps;
use peers::texts::{measure_texts, Locked};
use peers::timing::{resident_bytes, time, time_of};
use std::collections::HashSet;
use std::hint::black_box;
use std::sync::RwLock;

fn turn(index: u64) -> u64 {
    turn_of(index, COUNT)
}

trait Set: Default {
    fn insert(&mut self, number: u64) -> bool;
    fn has(&self, number: u64) -> bool;
}

impl Set for peers::Table<u64> {
    fn insert(&mut self, number: u64) -> bool {
        peers::Table::insert(self, hash_number(number), Box::new(number), |a, b| a == b, |n| hash_number(*n))
    }
    fn has(&self, number: u64) -> bool {
        self.lookup(hash_number(number), |n| *n == number).is_some()
    }
}

impl Set for StdSet {
    fn insert(&mut self, number: u64) -> bool {
        HashSet::insert(self, Box::new(number))
    }
    fn has(&self, number: u64) -> bool {
        self.contains(&number)
    }
}

impl Set for PlainSet {
    fn insert(&mut self, number: u64) -> bool {
        HashSet::insert(self, number)
    }
    fn has(&self, number: u64) -> bool {
        self.contains(&number)
    }
}

impl Set for RecordSet {
    fn insert(&mut self, number: u64) -> bool {
        HashSet::insert(self, Record::of(number))
    }
    fn has(&self, number: u64) -> bool {
        self.get(&Record::sought(number)).is_some_and(|record| record.is_of(number))
    }
}

fn measure<S: Set>(name: &str, group: &str) {
    match group {
        "one" => {
            let before = resident_bytes();
            let mut set = S::default();
            time(name, "a_ins1", || (0..COUNT).for_each(|i| assert!(black_box(set.insert(spread(i))))));
            println!("{name} g_rss {:.2}", (resident_bytes() - before) as f64 / COUNT as f64);
            time(name, "b_hit1", || (0..COUNT).for_each(|i| assert!(set.has(spread(turn(i))))));
            time(name, "c_miss1", || (0..COUNT).for_each(|i| assert!(!set.has(spread(turn(i) + (1 << 40))))));
        }
        "seq" => {
            let mut set = S::default();
            time(name, "seq_ins1", || (0..COUNT).for_each(|i| assert!(black_box(set.insert(i)))));
            time(name, "seq_hit1", || (0..COUNT).for_each(|i| assert!(set.has(turn(i)))));
        }
        "step" => {
            let mut set = S::default();
            time(name, "step_ins1", || (0..COUNT).for_each(|i| assert!(black_box(set.insert(i * STEP)))));
            time(name, "step_hit1", || (0..COUNT).for_each(|i| assert!(set.has(turn(i) * STEP))));
        }
        "1e4" => measure_size::<S>(name, group, 10_000, 100),
        "1e5" => measure_size::<S>(name, group, 100_000, 10),
        "1e7" => measure_size::<S>(name, group, 10_000_000, 1),
        "1e8" => measure_largest::<S>(name),
        _ => {}
    }
}

/// So many keys a set: inserts into so many sets, then hits and misses of one, over all its keys as often.
fn measure_size<S: Set>(name: &str, size: &str, keys: u64, rounds: u64) {
    let filled = || {
        let mut set = S::default();
        (0..keys).for_each(|i| assert!(black_box(set.insert(spread(i)))));
        set
    };
    time_of(name, &format!("ins_{size}"), keys * rounds, || (0..rounds).for_each(|_| drop(filled())));
    let set = filled();
    let look = |further: u64, is_there: bool| {
        for _ in 0..rounds {
            (0..keys).for_each(|i| assert_eq!(set.has(spread(turn_of(i, keys) + further)), is_there));
        }
    };
    time_of(name, &format!("hit_{size}"), keys * rounds, || look(0, true));
    time_of(name, &format!("miss_{size}"), keys * rounds, || look(1 << 40, false));
}

/// A hundred million keys in one set, which is made once.
fn measure_largest<S: Set>(name: &str) {
    const LARGEST: u64 = 100_000_000;
    let before = resident_bytes();
    let mut set = S::default();
    time_of(name, "ins_1e8", LARGEST, || (0..LARGEST).for_each(|i| assert!(black_box(set.insert(spread(i))))));
    println!("{name} rss_1e8 {:.2}", (resident_bytes() - before) as f64 / LARGEST as f64);
    let look = |further: u64, is_there: bool| {
        (0..LARGEST).for_each(|i| assert_eq!(set.has(spread(turn_of(i, LARGEST) + further)), is_there));
    };
    time_of(name, "hit_1e8", LARGEST, || look(0, true));
    time_of(name, "miss_1e8", LARGEST, || look(1 << 40, false));
}

const NAMES: &str = "plain-rust\nstd-HashSet\nstd-HashSet-u64\nrecords-std-HashSet\nrwlock-HashSet\nrecords-rwlock\n\
    texts-rwlock\nplain-steps\nplain-atomics\nplain-interner";

fn main() {
    let words: Vec<String> = std::env::args().skip(1).collect();
    match words.iter().map(String::as_str).collect::<Vec<_>>()[..] {
        ["list"] => println!("{NAMES}"),
        ["plain-rust", group] => measure::<peers::Table<u64>>("plain-rust", group),
        ["std-HashSet", group] => measure::<StdSet>("std-HashSet", group),
        [name @ "std-HashSet-u64", group] => measure::<PlainSet>(name, group),
        [name @ "records-std-HashSet", group] => measure::<RecordSet>(name, group),
        ["plain-atomics", group] => seats::measure(group),
        ["plain-interner", group] => interner::measure(group),
        [name @ "rwlock-HashSet", group] => measure_set::<RwLock<StdSet>>(name, group),
        [name @ "records-rwlock", group] => measure_set::<RwLock<RecordSet>>(name, group),
        [name @ "texts-rwlock", group] => measure_texts::<RwLock<Locked>>(name, group),
        [name @ "plain-steps", group] => measure_set::<Steps>(name, group),
        _ => {}
    }
}
