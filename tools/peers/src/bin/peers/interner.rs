//! The measurements of the interner, on one over std's map with the same hash.

use peers::interner::Interner;
use std::hint::black_box;
use std::num::NonZeroU32;

fn intern_all(interner: &mut Interner, texts: &[String]) {
    for (place, text) in texts.iter().enumerate() {
        assert!(interner.intern(text).get() as usize == place + 1);
    }
}

pub fn measure(group: &str) {
    let (count, rounds) = match group {
        "1e4" => (10_000, 100),
        "1e5" => (100_000, 10),
        "1e6" => (1_000_000, 1),
        _ => return,
    };
    let time = |measurement: &str, run: &mut dyn FnMut()| {
        super::time_of("plain-interner", &format!("{measurement}_{group}"), 1_000_000, run);
    };
    let texts: Vec<String> = (0..count).map(|index| format!("name{index}")).collect();
    time("new", &mut || (0..rounds).for_each(|_| intern_all(&mut Interner::default(), &texts)));
    let mut interner = Interner::default();
    intern_all(&mut interner, &texts);
    time("known", &mut || (0..rounds).for_each(|_| intern_all(&mut interner, &texts)));
    time("back", &mut || {
        for _ in 0..rounds {
            for index in 1..=count as u32 {
                assert!(interner.text(NonZeroU32::new(black_box(index)).unwrap()).unwrap().as_bytes()[0] == b'n');
            }
        }
    });
}
