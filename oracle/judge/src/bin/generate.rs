//! Lists of calls as text: what `judge` with the same options would send, without `show`.

use judge::batch::Batch;
use judge::options::Options;
use judge::oracle::{Oracle, Word};
use judge::source::Source;
use std::io::{stdout, BufWriter, Write};

fn main() -> std::io::Result<()> {
    let options = Options::get();
    let mut oracle = Oracle::from_pids(Word::Document, options.pids);
    let mut output = BufWriter::new(stdout().lock());
    let mut source = Source::new(&options);
    loop {
        let mut batch = Batch::default();
        source.fill(&mut batch, &mut oracle);
        if batch.lists.is_empty() {
            return output.flush();
        }
        for list in &batch.lists {
            output.write_all(b"fresh\n")?;
            for call in list {
                writeln!(output, "{call}")?;
            }
        }
    }
}
