//! `words` in plain Rust: the same loop over the same lines.

use peers::interner::Interner;
use std::io::{stdin, stdout, BufRead, BufReader, BufWriter, Write};
use std::num::NonZeroU32;

fn main() {
    let mut input = BufReader::with_capacity(65536, stdin());
    let mut output = BufWriter::with_capacity(65536, stdout());
    let mut words = Interner::default();
    let mut counts: Vec<u64> = Vec::new();
    let mut line = Vec::new();
    loop {
        line.clear();
        if input.read_until(b'\n', &mut line).unwrap() == 0 {
            break;
        }
        for word in line.split(u8::is_ascii_whitespace).filter(|word| !word.is_empty()) {
            let number = words.intern(std::str::from_utf8(word).unwrap()).get() as usize;
            if number > counts.len() {
                counts.push(0);
            }
            counts[number - 1] += 1;
        }
    }
    for (index, count) in counts.iter().enumerate() {
        let number = NonZeroU32::new(index as u32 + 1).unwrap();
        writeln!(output, "{number} {} {count}", words.text(number).unwrap()).unwrap();
    }
    output.flush().unwrap();
}
