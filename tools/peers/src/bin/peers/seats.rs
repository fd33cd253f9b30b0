//! The measurements of `tool_checks bench seats`, on the plain-Rust table of atomics: the same keys in the same order.

use crate::{spread, time_of, COUNT};
use peers::atomics::{Answer, NumberTable};
use std::num::NonZeroU64;
use std::thread;

const NAME: &str = "plain-atomics";

/// The table is about half full in the end.
const WORDS: usize = 1 << 21;

const THREADS: u64 = 4;

/// Look-ups begin at the key of this number, and go on by so many modulo `COUNT`.
const START: u64 = 12_345;

const STRIDE: u64 = 618_033;

/// How often each thread inserts the same keys, and how many those are.
const ROUNDS: u64 = 25;

const SAME: u64 = 10_000;

/// The part of a thread begins at this key.
fn first_key(worker: u64) -> u64 {
    worker * (COUNT / THREADS)
}

fn insert_key(table: &NumberTable, key: u64) -> bool {
    NonZeroU64::new(key).is_some_and(|number| table.insert(number) == Answer::Placed)
}

fn contains_key(table: &NumberTable, key: u64) -> bool {
    NonZeroU64::new(key).is_some_and(|number| table.contains(number))
}

fn insert_spread(table: &NumberTable, from: u64, count: u64) -> u64 {
    (from..from + count).filter(|index| insert_key(table, spread(*index))).count() as u64
}

fn count_spread(table: &NumberTable, start: u64, further: u64) -> u64 {
    let key = |index: u64| spread((index * STRIDE + start) % COUNT + further);
    (0..COUNT).filter(|index| contains_key(table, key(*index))).count() as u64
}

fn insert_in_order(table: &NumberTable) -> u64 {
    (0..COUNT).filter(|index| insert_key(table, index + 1)).count() as u64
}

fn count_in_order(table: &NumberTable) -> u64 {
    (0..COUNT).filter(|index| contains_key(table, (index * STRIDE + START) % COUNT + 1)).count() as u64
}

/// The sum of what the workers from this one on give, each in a thread of its own; half of them are started by another.
fn in_threads(from: u64, workers: u64, work: &(impl Fn(u64) -> u64 + Sync)) -> u64 {
    if workers == 1 {
        return work(from);
    }
    let half = workers / 2;
    thread::scope(|scope| {
        let front = scope.spawn(|| in_threads(from, half, work));
        let back = in_threads(from + half, workers - half, work);
        front.join().unwrap() + back
    })
}

fn time(measurement: &str, operations: u64, wanted: u64, run: impl FnOnce() -> u64) {
    time_of(NAME, measurement, operations, || assert_eq!(run(), wanted));
}

pub fn measure(group: &str) {
    let table = NumberTable::new(WORDS);
    match group {
        "one" => {
            time("a_ins1", COUNT, COUNT, || insert_spread(&table, 0, COUNT));
            time("b_hit1", COUNT, COUNT, || count_spread(&table, START, 0));
            time("c_miss1", COUNT, 0, || count_spread(&table, START, 1 << 40));
            let hits = |worker| count_spread(&table, START + first_key(worker) * STRIDE, 0);
            time("f_hit4", COUNT * THREADS, COUNT * THREADS, || in_threads(0, THREADS, &hits));
        }
        "seq" => {
            time("seq_ins1", COUNT, COUNT, || insert_in_order(&table));
            time("seq_hit1", COUNT, COUNT, || count_in_order(&table));
        }
        "same" => {
            let rounds = |_| (0..ROUNDS).map(|_| insert_spread(&table, 0, SAME)).sum();
            time("d_same4", ROUNDS * SAME * THREADS, SAME, || in_threads(0, THREADS, &rounds));
        }
        "ins" => {
            let quarter = |worker| insert_spread(&table, first_key(worker), COUNT / THREADS);
            time("e_ins4", COUNT, COUNT, || in_threads(0, THREADS, &quarter));
        }
        _ => {}
    }
}
