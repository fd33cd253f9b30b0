//! The measurements of `tool_checks bench texts-shared-interner`, on the atoms of string_cache.
//!
//!     peers_atoms list | peers_atoms texts-string-cache txt|txt4|words
//!
//! All atoms of a process lie in one set. An atom is freed when nothing has it, so each one that comes out is kept.

use peers::texts::{measure_texts, Texts};
use std::mem::ManuallyDrop;
use string_cache::DefaultAtom;

#[derive(Default)]
struct Atoms;

#[derive(PartialEq)]
struct Atom(ManuallyDrop<DefaultAtom>);

impl Texts for Atoms {
    type Name = Atom;

    fn name_of(&self, text: &str) -> Atom {
        Atom(ManuallyDrop::new(DefaultAtom::from(text)))
    }
    fn is_text(&self, name: &Atom, text: &str) -> bool {
        **name.0 == *text
    }
    fn count(&self) -> Option<u64> {
        None
    }
}

fn main() {
    let words: Vec<String> = std::env::args().skip(1).collect();
    match words.iter().map(String::as_str).collect::<Vec<_>>()[..] {
        ["list"] => println!("texts-string-cache"),
        [name @ "texts-string-cache", group] => measure_texts::<Atoms>(name, group),
        _ => {}
    }
}
