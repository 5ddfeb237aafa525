//! Why a call was refused.

use core::error::Error;
use core::fmt;

/// Why a call was refused, with document 01's numbers. A refusal changes nothing, but
/// [`TableFull`](Refusal::TableFull) and fork's [`NoMemory`](Refusal::NoMemory) spend a pid.
///
/// New calls bring new refusals, so a `match` needs an arm for others.
#[derive(Clone, Copy, PartialEq, Eq, Hash, Debug)]
#[non_exhaustive]
#[repr(u8)]
pub enum Refusal {
    /// 1: the hart's number is 8 or more.
    NoSuchHart = 1,
    /// 2: the hart runs nothing, so nobody calls (not for dispatch).
    HartIdle,
    /// 3: dispatch on a hart that runs a slot.
    HartBusy,
    /// 4: dispatch, and the queue is empty.
    QueueEmpty,
    /// 5: no slot is UNUSED; the pid is spent.
    TableFull,
    /// 6: the pid counter is at 2^64 - 1.
    PidsSpent,
    /// 7: fork, thread creation, join or grow by a slot without a group.
    NoGroup,
    /// 8: a thread's address or its alignment is wrong.
    BadAddress,
    /// 9: an address of the thread is not mapped.
    Unmapped,
    /// 10: no child to wait for, or killed and none is ZOMBIE; no thread to join, no pid to kill.
    NoneSuch,
    /// 11: wait or join found its ZOMBIE, but the status can't be written; the ZOMBIE stays.
    StatusUnwritable,
    /// 12: init exists already; or it is to be started and is absent, or was started before.
    InitOutOfTurn,
    /// 13: exit by init, system thread or thread; thread exit by the first two; return by another.
    WrongWayOut,
    /// 14: sleep or wake on a channel below 65.
    NotADevice,
    /// 15: a name of more than 16 bytes.
    NameTooLong,
    /// 16: the text doesn't fit in the buffer, which is untouched.
    NoRoom,
    /// 17: grow outside its limits.
    SizeOutOfLimits,
    /// 18: no memory for fork, whose pid is spent, or for growing upward.
    NoMemory,
}

impl Refusal {
    /// All of them, by rising number.
    pub const ALL: &'static [Refusal] = &[
        Refusal::NoSuchHart,
        Refusal::HartIdle,
        Refusal::HartBusy,
        Refusal::QueueEmpty,
        Refusal::TableFull,
        Refusal::PidsSpent,
        Refusal::NoGroup,
        Refusal::BadAddress,
        Refusal::Unmapped,
        Refusal::NoneSuch,
        Refusal::StatusUnwritable,
        Refusal::InitOutOfTurn,
        Refusal::WrongWayOut,
        Refusal::NotADevice,
        Refusal::NameTooLong,
        Refusal::NoRoom,
        Refusal::SizeOutOfLimits,
        Refusal::NoMemory,
    ];

    /// Document 01's number, from 1 on.
    #[inline]
    pub const fn number(self) -> u8 {
        self as u8
    }

    #[inline]
    pub(crate) fn numbered(number: u64) -> Option<Refusal> {
        Self::ALL.get(number.wrapping_sub(1) as usize).copied()
    }

    /// The words that lane writes after the number.
    const fn words(self) -> &'static str {
        match self {
            Refusal::NoSuchHart => "no such hart",
            Refusal::HartIdle => "hart idle",
            Refusal::HartBusy => "hart busy",
            Refusal::QueueEmpty => "queue empty",
            Refusal::TableFull => "table full",
            Refusal::PidsSpent => "pids spent",
            Refusal::NoGroup => "no group",
            Refusal::BadAddress => "bad address",
            Refusal::Unmapped => "unmapped",
            Refusal::NoneSuch => "none such",
            Refusal::StatusUnwritable => "status unwritable",
            Refusal::InitOutOfTurn => "init out of turn",
            Refusal::WrongWayOut => "wrong way out",
            Refusal::NotADevice => "not a device",
            Refusal::NameTooLong => "name too long",
            Refusal::NoRoom => "no room",
            Refusal::SizeOutOfLimits => "size out of limits",
            Refusal::NoMemory => "no memory",
        }
    }
}

impl fmt::Display for Refusal {
    fn fmt(&self, to: &mut fmt::Formatter<'_>) -> fmt::Result {
        to.pad(self.words())
    }
}

impl Error for Refusal {}
