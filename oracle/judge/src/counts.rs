//! What was counted.

use std::fmt::{Display, Formatter, Result};
use text::{Answer, Call, Refusal};

/// Where the Rust and document 01 are known to differ; docs/DIFFERENCES.md has an entry for each.
#[derive(Clone, Copy, PartialEq, Eq, Debug)]
#[repr(usize)]
pub enum Listed {
    /// A forked child's start record: zero, and a copy of the parent's in the Rust.
    ForkedStart,
    /// The sixteenth byte of a name: kept, and cut off in the Rust.
    LongName,
    /// A status that is not wanted: told, and not told by the Rust.
    StatusNotWanted,
    /// A name in the listing: ends at a zero byte; all sixteen bytes in the Rust.
    ListedZeros,
    /// A byte of a name outside 32 to 126: `?`; itself in the Rust.
    ListedBytes,
    /// A name that is not UTF-8: `?` for each such byte; a panic in the Rust.
    ListedPanic,
}

pub const KINDS: [(Listed, &str); 6] = [
    (
        Listed::ForkedStart,
        "start record of a forked child (slots shown)",
    ),
    (Listed::LongName, "sixteenth byte of a name (slots shown)"),
    (
        Listed::StatusNotWanted,
        "status that is not wanted (answers)",
    ),
    (
        Listed::ListedZeros,
        "zero bytes after a name (lines listed)",
    ),
    (
        Listed::ListedBytes,
        "bytes outside 32 to 126 (lines listed)",
    ),
    (
        Listed::ListedPanic,
        "names not in UTF-8, a panic (listings)",
    ),
];

pub const CALLS: [&str; 17] = [
    "boot",
    "start",
    "spawn",
    "fork",
    "thread",
    "dispatch",
    "yield",
    "sleep",
    "wake",
    "kill",
    "wait",
    "join",
    "exit",
    "thread-exit",
    "system-return",
    "grow",
    "list",
];

const ANSWERS: [&str; 7] = [
    "done", "pid", "slot", "reaped", "joined", "blocked", "broken",
];

/// A place for each refusal's number, and for 0.
const NUMBERS: usize = Refusal::LAST as usize + 1;

/// The place of a call in `CALLS`.
fn place_of(call: &Call) -> usize {
    match call {
        Call::Boot => 0,
        Call::Start => 1,
        Call::Spawn { .. } => 2,
        Call::Fork { .. } => 3,
        Call::Thread { .. } => 4,
        Call::Dispatch(_) => 5,
        Call::Yield(_) => 6,
        Call::Sleep { .. } => 7,
        Call::Wake(_) => 8,
        Call::Kill(_) => 9,
        Call::Wait { .. } => 10,
        Call::Join { .. } => 11,
        Call::Exit { .. } => 12,
        Call::ThreadExit { .. } => 13,
        Call::SystemReturn(_) => 14,
        Call::Grow { .. } => 15,
        Call::List(_) | Call::Show | Call::Fresh => 16,
    }
}

fn column_of(answer: &Answer) -> usize {
    match answer {
        Answer::Done => 0,
        Answer::Pid(_) => 1,
        Answer::Slot(_) => 2,
        Answer::Reaped(..) => 3,
        Answer::Joined(_) => 4,
        Answer::Blocked => 5,
        Answer::Broken(_) => 6,
        Answer::Refused(refusal) => ANSWERS.len() + *refusal as usize,
    }
}

#[derive(Clone, Default, Debug)]
pub struct Counts {
    pub lists: u64,
    pub calls: u64,
    /// Answers that came from the Rust.
    pub answers: u64,
    /// Answers of document 01 alone, by refusal number.
    pub added: [u64; NUMBERS],
    /// The Rust's answers by call: each of `ANSWERS`, then the refusals by number.
    pub by_call: [[u64; ANSWERS.len() + NUMBERS]; CALLS.len()],
    pub fields: u64,
    pub listed: [u64; KINDS.len()],
    /// Calls that went on in the Rust's own loop.
    pub same_call: u64,
    /// Calls made in the place of one that would have gone on.
    pub other_call: u64,
    pub unlisted: u64,
}

impl Counts {
    pub fn note(&mut self, kind: Listed) {
        self.listed[kind as usize] += 1;
    }

    /// An answer that came from the Rust.
    pub fn answered(&mut self, call: &Call, answer: &Answer) {
        self.answers += 1;
        self.by_call[place_of(call)][column_of(answer)] += 1;
    }

    fn put_calls(&self, to: &mut Formatter) -> Result {
        for (call, counts) in CALLS.iter().zip(&self.by_call) {
            let used = (0..counts.len()).filter(|&column| counts[column] > 0);
            let parts = used.map(|column| match ANSWERS.get(column) {
                Some(answer) => format!("{answer} {}", counts[column]),
                None => format!("refused {}: {}", column - ANSWERS.len(), counts[column]),
            });
            let parts: Vec<String> = parts.collect();
            writeln!(to, "  {call:<24} {}", parts.join(", "))?;
        }
        Ok(())
    }
}

fn by_number(numbers: &[u64; NUMBERS]) -> String {
    let used = (1..NUMBERS).filter(|&n| numbers[n] > 0);
    let parts: Vec<_> = used.map(|n| format!("{n}: {}", numbers[n])).collect();
    match parts.is_empty() {
        true => "none".to_string(),
        false => parts.join(", "),
    }
}

impl Display for Counts {
    fn fmt(&self, to: &mut Formatter) -> Result {
        let added: u64 = self.added.iter().sum();
        writeln!(to, "lists                      {}", self.lists)?;
        writeln!(to, "calls                      {}", self.calls)?;
        writeln!(to, "answers from the Rust      {}", self.answers)?;
        self.put_calls(to)?;
        writeln!(to, "  went on in its own loop  {}", self.same_call)?;
        writeln!(to, "  another call instead     {}", self.other_call)?;
        writeln!(
            to,
            "added by document 01       {added}, not compared with the Rust"
        )?;
        writeln!(to, "  by number                {}", by_number(&self.added))?;
        writeln!(to, "fields compared            {}", self.fields)?;
        writeln!(to, "listed differences")?;
        for (kind, words) in KINDS {
            writeln!(to, "  {:<45} {}", words, self.listed[kind as usize])?;
        }
        writeln!(to, "unlisted differences       {}", self.unlisted)
    }
}
