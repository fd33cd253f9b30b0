//! An interner over std's map, with the proved one's hash: 31 times it and the next byte.

use std::collections::HashMap;
use std::hash::{BuildHasherDefault, Hasher};
use std::num::NonZeroU32;
use std::sync::Arc;

#[derive(Default)]
pub struct TextHasher(u64);

impl Hasher for TextHasher {
    fn finish(&self) -> u64 {
        self.0
    }
    fn write(&mut self, bytes: &[u8]) {
        for byte in bytes {
            self.0 = self.0.wrapping_mul(31).wrapping_add(u64::from(*byte));
        }
    }
    fn write_u8(&mut self, _end_of_text: u8) {}
}

#[derive(Default)]
pub struct Interner {
    by_text: HashMap<Arc<str>, NonZeroU32, BuildHasherDefault<TextHasher>>,
    by_number: Vec<Arc<str>>,
}

impl Interner {
    pub fn intern(&mut self, text: &str) -> NonZeroU32 {
        if let Some(number) = self.by_text.get(text) {
            return *number;
        }
        let number = NonZeroU32::new(u32::try_from(self.by_number.len() + 1).unwrap()).unwrap();
        let shared: Arc<str> = text.into();
        self.by_number.push(shared.clone());
        self.by_text.insert(shared, number);
        number
    }

    pub fn text(&self, number: NonZeroU32) -> Option<&str> {
        self.by_number.get(number.get() as usize - 1).map(|text| &**text)
    }
}
