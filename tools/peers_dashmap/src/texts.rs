//! Interners over dashmap: a map and a locked list, and two maps, as lasso's `ThreadedRodeo` has them.

use dashmap::mapref::entry::Entry;
use dashmap::DashMap;
use peers::texts::{kept, ByText, Texts};
use std::sync::atomic::{AtomicU32, Ordering::SeqCst};
use std::sync::RwLock;

type Numbers = DashMap<&'static str, u32, ByText>;

/// The number of the text in the map. A new text is copied, and gets the number that `add` returns.
fn number_in(numbers: &Numbers, text: &str, add: impl FnOnce(&'static str) -> u32) -> u32 {
    if let Some(number) = numbers.get(text) {
        return *number;
    }
    let text = kept(text);
    match numbers.entry(text) {
        Entry::Occupied(entry) => *entry.get(),
        Entry::Vacant(entry) => *entry.insert(add(text)),
    }
}

/// A map, and the texts by their numbers.
#[derive(Default)]
pub struct Listed {
    by_text: Numbers,
    by_number: RwLock<Vec<&'static str>>,
}

impl Listed {
    fn push(&self, text: &'static str) -> u32 {
        let mut texts = self.by_number.write().unwrap();
        texts.push(text);
        u32::try_from(texts.len() - 1).unwrap()
    }
}

impl Texts for Listed {
    type Name = u32;

    fn name_of(&self, text: &str) -> u32 {
        number_in(&self.by_text, text, |text| self.push(text))
    }
    fn is_text(&self, number: &u32, text: &str) -> bool {
        self.by_number.read().unwrap().get(*number as usize).is_some_and(|entry| *entry == text)
    }
    fn count(&self) -> Option<u64> {
        Some(self.by_text.len() as u64)
    }
}

/// Two maps.
#[derive(Default)]
pub struct Mapped {
    by_text: Numbers,
    by_number: DashMap<u32, &'static str, ByText>,
    next: AtomicU32,
}

impl Mapped {
    fn put(&self, text: &'static str) -> u32 {
        let number = self.next.fetch_add(1, SeqCst);
        self.by_number.insert(number, text);
        number
    }
}

impl Texts for Mapped {
    type Name = u32;

    fn name_of(&self, text: &str) -> u32 {
        number_in(&self.by_text, text, |text| self.put(text))
    }
    fn is_text(&self, number: &u32, text: &str) -> bool {
        self.by_number.get(number).is_some_and(|entry| **entry == *text)
    }
    fn count(&self) -> Option<u64> {
        Some(self.by_text.len() as u64)
    }
}
