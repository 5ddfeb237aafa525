//! Compares a program that speaks `lane`'s text with the carried kernel, call by call.

use judge::batch::{Batch, Difference};
use judge::options::{Options, USE};
use judge::oracle::{Oracle, Word};
use judge::pipe;
use judge::reduce::Sides;
use judge::source::Source;
use std::io::Result;
use std::process::ExitCode;
use text::Call;

fn main() -> Result<ExitCode> {
    let options = Options::get();
    if options.command.is_empty() {
        eprintln!("{USE}");
        return Ok(ExitCode::from(2));
    }
    if !answers(&options.command) {
        let command = options.command.join(" ");
        eprintln!("judge: `{command}` does not answer `fresh` with `done`");
        return Ok(ExitCode::from(2));
    }
    let mut oracle = Oracle::from_pids(Word::Document, options.pids);
    let mut source = Source::new(&options);
    while oracle.counts.unlisted < options.differences {
        let mut batch = Batch::default();
        source.fill(&mut batch, &mut oracle);
        if batch.lists.is_empty() {
            break;
        }
        let output = pipe::run(&options.command, &batch.input)?;
        if let Some(difference) = batch.compare(&output) {
            oracle.counts.unlisted += 1;
            tell(&options, &batch.lists[difference.list], &difference)?;
        }
    }
    print!("{}", oracle.counts);
    if oracle.counts.unlisted == 0 {
        return Ok(ExitCode::SUCCESS);
    }
    eprintln!("judge: the program and the Rust disagree; short lists that show it stand above");
    Ok(ExitCode::FAILURE)
}

/// The program can be started and speaks the text.
fn answers(command: &[String]) -> bool {
    pipe::run(command, b"fresh\n").is_ok_and(|output| output == b"done\n")
}

/// Prints the difference, with a short list that shows it.
fn tell(options: &Options, list: &[Call], difference: &Difference) -> Result<()> {
    println!("DIFFERENCE after call {} of a list:", difference.call + 1);
    let command = &options.command;
    let mut oracle = Oracle::from_pids(Word::Document, options.pids);
    let mut sides = Sides {
        oracle: &mut oracle,
        command,
    };
    let short = sides.reduce(list)?;
    let mut batch = Batch::default();
    batch.add_list(&mut oracle, 1, &short);
    let output = pipe::run(command, &batch.input)?;
    for call in &short {
        println!("    {call}");
    }
    let again = batch.compare(&output);
    let shown = again.as_ref().unwrap_or(difference);
    println!("  the Rust: {}", shown.expected);
    println!("  the other: {}", shown.found);
    Ok(())
}
