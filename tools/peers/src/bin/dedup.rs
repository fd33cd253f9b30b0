//! `dedup` in plain Rust: the same loop over the same lines, with the same hash, over the layout of `peers`.

use std::io::{stdin, stdout, BufRead, BufReader, BufWriter, Write};

fn hash_line(line: &[u8]) -> u64 {
    line.iter().fold(0, |hash: u64, byte| hash.wrapping_add(u64::from(*byte)).wrapping_mul(0x9E37_79B9_7F4A_7C15))
}

fn main() {
    let mut input = BufReader::with_capacity(65536, stdin());
    let mut output = BufWriter::with_capacity(65536, stdout());
    let mut seen = peers::Table::<Vec<u8>>::new();
    let mut line = Vec::new();
    loop {
        if !input.buffer().contains(&b'\n') {
            output.flush().unwrap();
        }
        line.clear();
        if input.read_until(b'\n', &mut line).unwrap() == 0 {
            break;
        }
        if line.last() == Some(&b'\n') {
            line.pop();
        }
        let hash = hash_line(&line);
        if seen.lookup(hash, |entry| *entry == line).is_none() {
            seen.insert(hash, Box::new(line.clone()), |a, b| a == b, |entry| hash_line(entry));
            output.write_all(&line).unwrap();
            output.write_all(b"\n").unwrap();
        }
    }
    output.flush().unwrap();
}
