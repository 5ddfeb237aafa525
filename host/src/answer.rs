//! An answer's three words, and what each call may make of them.

use crate::{Exited, Joined, Pid, Refusal, Slot, Waited};

/// The first word says which answer it is (`values_of` in crates/rules/specs/Answers.antt).
const DONE: u64 = 0;
const MADE: u64 = 1;
const HANDED: u64 = 2;
const REAPED: u64 = 3;
const JOINED: u64 = 4;
const BLOCKED: u64 = 5;
const REFUSED: u64 = 6;
/// A text's length (`room_words` in crates/sights/specs/Sights.antt).
const LISTED: u64 = 7;

pub struct Answer(pub [u64; 3]);

/// No contract leaves a way here: one table is lent, the types keep arguments in their range, and a
/// call answers as its definition does.
#[cold]
pub fn impossible(code: u64, words: &[u64]) -> ! {
    unreachable!("the proved table gave code {code} and words {words:?}: not the declared archive")
}

impl Answer {
    #[inline]
    pub fn done(self) -> Result<(), Refusal> {
        match self.0 {
            [DONE, ..] => Ok(()),
            _ => self.refused(),
        }
    }

    #[inline]
    pub fn made(self) -> Result<Pid, Refusal> {
        match self.0 {
            [MADE, pid, _] => Ok(Pid(pid)),
            _ => self.refused(),
        }
    }

    #[inline]
    pub fn handed(self) -> Result<Slot, Refusal> {
        match self.0 {
            [HANDED, slot, _] => Ok(Slot(slot as usize)),
            _ => self.refused(),
        }
    }

    #[inline]
    pub fn waited(self) -> Result<Waited, Refusal> {
        match self.0 {
            [REAPED, pid, status] => Ok(Waited::Reaped {
                pid: Pid(pid),
                status,
            }),
            [BLOCKED, ..] => Ok(Waited::Blocked),
            _ => self.refused(),
        }
    }

    #[inline]
    pub fn joined(self) -> Result<Joined, Refusal> {
        match self.0 {
            // In two's complement of 64 bits, so its low 32 are the number.
            [JOINED, status, _] => Ok(Joined::Status(status as i32)),
            [BLOCKED, ..] => Ok(Joined::Blocked),
            _ => self.refused(),
        }
    }

    #[inline]
    pub fn exited(self) -> Result<Exited, Refusal> {
        match self.0 {
            [DONE, ..] => Ok(Exited::Gone),
            [BLOCKED, ..] => Ok(Exited::Blocked),
            _ => self.refused(),
        }
    }

    /// The front part of the buffer that was lent.
    #[inline]
    pub fn written(self, buffer: &[u8]) -> Result<&[u8], Refusal> {
        match self.0 {
            [LISTED, len, _] if len <= buffer.len() as u64 => Ok(&buffer[..len as usize]),
            _ => self.refused(),
        }
    }

    #[inline]
    fn refused<T>(self) -> Result<T, Refusal> {
        let refusal = match self.0 {
            [REFUSED, number, _] => Refusal::numbered(number),
            _ => None,
        };
        Err(refusal.unwrap_or_else(|| impossible(0, &self.0)))
    }
}
