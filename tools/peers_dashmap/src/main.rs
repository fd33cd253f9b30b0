//! The measurements of `tool_checks bench`, on dashmap's set.
//!
//!     peers_dashmap list | peers_dashmap dashmap|dashmap-u64|records-dashmap one|seq|step|same|ins|hit|1e4|1e5|1e7|1e8 |
//!     peers_dashmap texts-dashmap|texts-two-dashmaps txt|txt4|words

mod texts;

use dashmap::DashSet;
use peers::keys::{ByStated, Record};
use peers::sharing::{measure_set, Shared};
use peers::texts::measure_texts;
use texts::{Listed, Mapped};

#[derive(Default)]
struct Sharded(DashSet<Box<u64>, ByStated>);

impl Shared for Sharded {
    fn insert(&self, number: u64) -> bool {
        self.0.insert(Box::new(number))
    }
    fn has(&self, number: u64) -> bool {
        self.0.contains(&number)
    }
}

#[derive(Default)]
struct Plain(DashSet<u64, ByStated>);

impl Shared for Plain {
    fn insert(&self, number: u64) -> bool {
        self.0.insert(number)
    }
    fn has(&self, number: u64) -> bool {
        self.0.contains(&number)
    }
}

#[derive(Default)]
struct Records(DashSet<Record, ByStated>);

impl Shared for Records {
    fn insert(&self, number: u64) -> bool {
        self.0.insert(Record::of(number))
    }
    fn has(&self, number: u64) -> bool {
        self.0.get(&Record::sought(number)).is_some_and(|record| record.is_of(number))
    }
}

fn main() {
    let words: Vec<String> = std::env::args().skip(1).collect();
    match words.iter().map(String::as_str).collect::<Vec<_>>()[..] {
        ["list"] => println!("dashmap\ndashmap-u64\nrecords-dashmap\ntexts-dashmap\ntexts-two-dashmaps"),
        ["dashmap", group] => measure_set::<Sharded>("dashmap", group),
        ["dashmap-u64", group] => measure_set::<Plain>("dashmap-u64", group),
        [name @ "records-dashmap", group] => measure_set::<Records>(name, group),
        [name @ "texts-dashmap", group] => measure_texts::<Listed>(name, group),
        [name @ "texts-two-dashmaps", group] => measure_texts::<Mapped>(name, group),
        _ => {}
    }
}
