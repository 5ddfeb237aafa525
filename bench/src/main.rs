//! The proved table and a plain Rust one on the same calls, in one run: time, answers and the ratio.

#[path = "../../host/tests/lane/calls.rs"]
mod linked;
mod mix;

use plain::Table;
use std::process::ExitCode;
use std::time::Instant;
use text::{Answer, Call, Lane};

struct Options {
    calls: usize,
    rounds: usize,
    seed: u64,
}

/// What all answers so far come to.
#[inline]
fn fold(sum: u64, answer: &Answer) -> u64 {
    let words = match *answer {
        Answer::Done => [0, 0, 0],
        Answer::Pid(pid) => [1, pid, 0],
        Answer::Slot(slot) => [2, slot as u64, 0],
        Answer::Reaped(pid, status) => [3, pid, status],
        Answer::Joined(status) => [4, i64::from(status) as u64, 0],
        Answer::Blocked => [5, 0, 0],
        Answer::Refused(refusal) => [6, refusal.number(), 0],
        Answer::Broken(_) => [u64::MAX, 0, 0],
    };
    words.into_iter().fold(sum, |sum, word| {
        let mixed = (sum ^ word).wrapping_mul(0x0000_0100_0000_01B3);
        mixed.rotate_left(23)
    })
}

/// Nanoseconds for a call, and the sum of the answers.
fn timed(calls: &[Call], mut answer: impl FnMut(&Call) -> Answer) -> (f64, u64) {
    let start = Instant::now();
    let sum = calls.iter().fold(0, |sum, call| fold(sum, &answer(call)));
    (
        start.elapsed().as_secs_f64() * 1e9 / calls.len() as f64,
        sum,
    )
}

struct Best {
    plain: f64,
    linked: f64,
    same: bool,
}

/// The best of the rounds for each, the two taking turns.
fn rounds(calls: &[Call], rounds: usize) -> Best {
    let mut best = Best {
        plain: f64::INFINITY,
        linked: f64::INFINITY,
        same: true,
    };
    let (mut plain, mut proved) = (Table::new(), anwalghid::Table::new());
    for _ in 0..rounds {
        plain.reset();
        let (time, said) = timed(calls, |call| plain.answer(call));
        best.plain = best.plain.min(time);
        proved.renew();
        let (time, heard) = timed(calls, |call| linked::answer(&mut proved, call));
        best.linked = best.linked.min(time);
        best.same &= said == heard;
    }
    best
}

fn options() -> Result<Options, String> {
    let mut options = Options {
        calls: 2_000_000,
        rounds: 7,
        seed: 1,
    };
    let mut words = std::env::args().skip(1);
    while let Some(word) = words.next() {
        let number = words.next().and_then(|n| n.parse::<u64>().ok());
        let number = number.ok_or(format!("{word}: a number has to follow"))?;
        match word.as_str() {
            "--calls" => options.calls = number as usize,
            "--rounds" => options.rounds = (number as usize).max(1),
            "--seed" => options.seed = number,
            _ => return Err(format!("unknown option {word}")),
        }
    }
    Ok(options)
}

fn main() -> ExitCode {
    let options = match options() {
        Ok(options) => options,
        Err(why) => {
            eprintln!("bench: {why}; options are --calls N, --rounds N, --seed N");
            return ExitCode::from(2);
        }
    };
    let mut same = true;
    println!("list          calls  plain ns/call  proved ns/call   ratio");
    for (mix, name) in mix::ALL {
        let mut table = Table::new();
        let calls = mix::list(mix, options.calls, options.seed, &mut table);
        let best = rounds(&calls, options.rounds);
        let ratio = best.linked / best.plain;
        let (plain, linked) = (best.plain, best.linked);
        println!(
            "{name:<8} {:>10} {plain:>14.2} {linked:>15.2} {ratio:>7.2}",
            calls.len()
        );
        same &= best.same;
    }
    if !same {
        eprintln!("bench: the two gave different answers");
        return ExitCode::FAILURE;
    }
    println!("the answers were the same");
    ExitCode::SUCCESS
}
