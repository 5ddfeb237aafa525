//! Lane's text over the linked table: calls on standard input, answers on standard output.
//! `oracle/compare.sh -- host/target/release/examples/lane` compares it with the Rust.

#[path = "../tests/lane/mod.rs"]
mod lane;

use std::io::{stdin, stdout, BufWriter};

fn main() -> std::io::Result<()> {
    lane::serve(
        stdin().lock(),
        BufWriter::with_capacity(1 << 16, stdout().lock()),
    )
}
