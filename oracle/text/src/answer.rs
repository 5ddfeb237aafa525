//! Answers and refusals.

use crate::view::put_number;

/// Document 01's numbers.
#[derive(Clone, Copy, PartialEq, Eq, Debug)]
#[repr(u8)]
pub enum Refusal {
    NoSuchHart = 1,
    HartIdle,
    HartBusy,
    QueueEmpty,
    TableFull,
    PidsSpent,
    NoGroup,
    BadAddress,
    Unmapped,
    NoneSuch,
    StatusUnwritable,
    InitOutOfTurn,
    WrongWayOut,
    NotADevice,
    NameTooLong,
    NoRoom,
    SizeOutOfLimits,
    NoMemory,
}

impl Refusal {
    /// The one with the largest number.
    pub const LAST: Refusal = Refusal::NoMemory;

    pub fn number(self) -> u64 {
        self as u64
    }

    pub fn words(self) -> &'static str {
        match self {
            Refusal::NoSuchHart => "no such hart",
            Refusal::HartIdle => "hart idle",
            Refusal::HartBusy => "hart busy",
            Refusal::QueueEmpty => "queue empty",
            Refusal::TableFull => "table full",
            Refusal::PidsSpent => "pids spent",
            Refusal::NoGroup => "no group",
            Refusal::BadAddress => "bad address",
            Refusal::Unmapped => "unmapped",
            Refusal::NoneSuch => "none such",
            Refusal::StatusUnwritable => "status unwritable",
            Refusal::InitOutOfTurn => "init out of turn",
            Refusal::WrongWayOut => "wrong way out",
            Refusal::NotADevice => "not a device",
            Refusal::NameTooLong => "name too long",
            Refusal::NoRoom => "no room",
            Refusal::SizeOutOfLimits => "size out of limits",
            Refusal::NoMemory => "no memory",
        }
    }
}

#[derive(Clone, PartialEq, Eq, Debug)]
pub enum Answer {
    Done,
    Pid(u64),
    Slot(usize),
    Reaped(u64, u64),
    Joined(i32),
    Blocked,
    Refused(Refusal),
    /// No answer: the Rust panicked or hung, in its words. `lane` never says this.
    Broken(String),
}

impl Answer {
    /// The answer's line.
    pub fn put(&self, out: &mut Vec<u8>) {
        match self {
            Answer::Done => out.extend(b"done"),
            Answer::Blocked => out.extend(b"blocked"),
            Answer::Pid(pid) => put_words(out, b"pid", &[*pid]),
            Answer::Slot(slot) => put_words(out, b"slot", &[*slot as u64]),
            Answer::Reaped(pid, status) => put_words(out, b"reaped", &[*pid, *status]),
            Answer::Joined(status) => out.extend(format!("joined {status}").bytes()),
            Answer::Refused(refusal) => {
                put_words(out, b"refused", &[refusal.number()]);
                out.push(b' ');
                out.extend(refusal.words().bytes());
            }
            Answer::Broken(words) => {
                let words = words.split_whitespace().collect::<Vec<_>>().join(" ");
                out.extend(format!("broken {words}").bytes());
            }
        }
        out.push(b'\n');
    }
}

fn put_words(out: &mut Vec<u8>, word: &[u8], numbers: &[u64]) {
    out.extend(word);
    for &number in numbers {
        out.push(b' ');
        put_number(out, number);
    }
}
