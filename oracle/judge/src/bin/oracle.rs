//! The carried kernel behind `lane`'s text: calls on standard input, answers on standard output.

use judge::oracle::{Oracle, Word};
use std::io::{stdin, stdout, BufWriter};

const USE: &str = "usage: oracle [--by-document | --unguarded] [--pids N] < CALLS
  (nothing)      the Rust's values; where document 01 adds a refusal, that refusal
  --by-document  the same with document 01's values where the two are known to differ
  --unguarded    the Rust is called there too; a panic or a hang is told as `broken WORDS`
  --pids N       the pid counter of a fresh table (0)";

fn read(mut arguments: impl Iterator<Item = String>) -> Option<(Word, usize)> {
    let (mut word, mut pids) = (Word::Rust, 0);
    while let Some(argument) = arguments.next() {
        match argument.as_str() {
            "--by-document" => word = Word::Document,
            "--unguarded" => word = Word::Unguarded,
            "--pids" => pids = arguments.next()?.parse().ok()?,
            _ => return None,
        }
    }
    Some((word, pids))
}

fn main() -> std::io::Result<()> {
    let Some((word, pids)) = read(std::env::args().skip(1)) else {
        eprintln!("{USE}");
        std::process::exit(2);
    };
    let mut oracle = Oracle::from_pids(word, pids);
    let output = BufWriter::with_capacity(1 << 16, stdout().lock());
    text::serve(&mut oracle, stdin().lock(), output)?;
    eprint!("{}", oracle.counts);
    Ok(())
}
