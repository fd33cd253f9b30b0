//! What a measurement prints.

use crate::keys::COUNT;
use std::time::Instant;

pub fn resident_bytes() -> u64 {
    let text = std::fs::read_to_string("/proc/self/statm").unwrap();
    text.split_whitespace().nth(1).unwrap().parse::<u64>().unwrap() * 4096
}

pub fn time_of(name: &str, measurement: &str, operations: u64, run: impl FnOnce()) {
    let start = Instant::now();
    run();
    println!("{name} {measurement} {:.2}", start.elapsed().as_secs_f64() * 1e9 / operations as f64);
}

pub fn time(name: &str, measurement: &str, run: impl FnOnce()) {
    time_of(name, measurement, COUNT, run);
}
