//! The plain table behind `lane`'s text: calls on standard input, answers on standard output.
//! `model --pids N` starts the pid counter of a fresh table at N.

use std::io::{stdin, stdout, BufWriter};

fn first_pids(arguments: &[String]) -> Option<u64> {
    match arguments {
        [] => Some(0),
        [name, number] if name == "--pids" => number.parse().ok(),
        _ => None,
    }
}

fn main() -> std::io::Result<()> {
    let arguments: Vec<String> = std::env::args().skip(1).collect();
    let Some(pids) = first_pids(&arguments) else {
        eprintln!("usage: model [--pids N] < CALLS");
        std::process::exit(2);
    };
    let output = BufWriter::with_capacity(1 << 16, stdout().lock());
    text::serve(&mut plain::Table::from_pids(pids), stdin().lock(), output)
}
