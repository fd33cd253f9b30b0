//! `tablerun calls` in plain Rust, for inserts and look-ups alone: the same loop over the same lines.

use std::io::{stdin, stdout, BufRead, BufReader, BufWriter, Write};

type Pair = (u64, u64);

fn parse(line: &[u8]) -> Option<(u8, Pair)> {
    let mut parts = line.split(|b| *b == b' ');
    let word = parts.next()?;
    let mut number = || std::str::from_utf8(parts.next()?).ok()?.parse::<u64>().ok();
    let pair = (number()?, number()?);
    Some((*word.first()?, pair))
}

fn main() {
    let mut input = BufReader::with_capacity(16384, stdin());
    let mut output = BufWriter::with_capacity(16384, stdout());
    let mut table = peers::Table::<Pair>::new();
    let mut line = Vec::new();
    loop {
        if !input.buffer().contains(&b'\n') {
            output.flush().unwrap();
        }
        line.clear();
        if input.read_until(b'\n', &mut line).unwrap() == 0 {
            break;
        }
        if line.last() == Some(&b'\n') {
            line.pop();
        }
        match parse(&line) {
            Some((b'i', pair)) => {
                let placed = table.insert(pair.0, Box::new(pair), |a, b| a == b, |pair| pair.0);
                writeln!(output, "{}", if placed { "placed" } else { "found" }).unwrap();
            }
            Some((b'l', pair)) => match table.lookup(pair.0, |entry| *entry == pair) {
                Some(entry) => writeln!(output, "some {}", entry.1).unwrap(),
                None => writeln!(output, "none").unwrap(),
            },
            _ => panic!("bad line"),
        }
    }
    output.flush().unwrap();
}
