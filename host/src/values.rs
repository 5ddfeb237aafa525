//! What calls are given, and what they answer.

use crate::Table;

/// A process or thread number. Never given twice; 0 is nobody's.
///
/// It is no slot, so that a join can't be given one:
///
/// ```compile_fail
/// # use anwalghid::{Hart, Slot, Table, Wish};
/// Table::new().join_user_thread(Hart(0), Slot(2), Wish::Writable);
/// ```
#[derive(Clone, Copy, PartialEq, Eq, PartialOrd, Ord, Hash, Debug)]
pub struct Pid(pub u64);

/// A place in the table, 0 to 63.
#[derive(Clone, Copy, PartialEq, Eq, PartialOrd, Ord, Hash, Debug)]
pub struct Slot(pub usize);

/// A processor, 0 to 7. Any other number is refused: [`NoSuchHart`](crate::Refusal::NoSuchHart).
#[derive(Clone, Copy, PartialEq, Eq, PartialOrd, Ord, Hash, Debug)]
pub struct Hart(pub usize);

/// An address space, which a process shares with its threads.
#[derive(Clone, Copy, PartialEq, Eq, PartialOrd, Ord, Hash, Debug)]
pub struct Group(pub usize);

/// What a slot sleeps on: 0 nothing, 1 to 64 a slot's own channel, 65 and up a device.
#[derive(Clone, Copy, PartialEq, Eq, PartialOrd, Ord, Hash, Debug)]
pub struct Channel(pub u64);

impl Channel {
    /// No channel.
    pub const NONE: Channel = Channel(0);

    /// The lowest that may be given to sleep and wake: 0 is none, then each slot's own.
    pub const FIRST_DEVICE: Channel = Channel(Table::SLOTS as u64 + 1);

    /// The slot whose own channel this is.
    #[inline]
    pub const fn slot(self) -> Option<Slot> {
        if self.0 == Self::NONE.0 || self.is_device() {
            return None;
        }
        Some(Slot(self.0 as usize - 1))
    }

    /// Is it a device's?
    #[inline]
    pub const fn is_device(self) -> bool {
        self.0 >= Self::FIRST_DEVICE.0
    }
}

/// What a caller of wait or join says of the status. It comes back in the first two.
#[derive(Clone, Copy, PartialEq, Eq, Hash, Debug)]
pub enum Wish {
    /// No address was given for it.
    NotWanted = 0,
    /// It can be written.
    Writable = 1,
    /// An address was given that can't be written.
    Unwritable = 2,
}

/// A thread that is asked for.
#[derive(Clone, Copy, PartialEq, Eq, Hash, Debug, Default)]
pub struct ThreadAsk {
    /// Where it starts.
    pub entry: u64,
    /// What it is given.
    pub arg: u64,
    /// Its stack's lowest address; the stack is a page of 4096 bytes.
    pub stack: u64,
    /// Where its function returns to.
    pub ret: u64,
}

/// The host's answers on a thread's addresses: is it mapped?
#[derive(Clone, Copy, PartialEq, Eq, Hash, Debug)]
pub struct Mapped {
    /// The entry.
    pub entry: bool,
    /// The return address.
    pub ret: bool,
    /// The stack's lowest address.
    pub stack: bool,
    /// The stack's top - 1.
    pub top: bool,
}

impl Mapped {
    /// All four are.
    pub const ALL: Mapped = Mapped {
        entry: true,
        ret: true,
        stack: true,
        top: true,
    };

    /// A bit each (`mapped_of` in crates/codes/specs/Codes.antt).
    #[inline]
    pub(crate) fn bits(self) -> u64 {
        let (entry, ret) = (u64::from(self.entry), u64::from(self.ret));
        let (stack, top) = (u64::from(self.stack), u64::from(self.top));
        entry | ret << 1 | stack << 2 | top << 3
    }
}

/// Wait's answer.
#[must_use]
#[derive(Clone, Copy, PartialEq, Eq, Hash, Debug)]
pub enum Waited {
    /// A child had ended, and its slot is free again.
    Reaped {
        /// The child.
        pid: Pid,
        /// What it ended with.
        status: u64,
    },
    /// The caller sleeps; when it is dispatched it asks again.
    Blocked,
}

/// Join's answer.
#[must_use]
#[derive(Clone, Copy, PartialEq, Eq, Hash, Debug)]
pub enum Joined {
    /// The thread had ended with this, the low 32 bits of its status; its slot is free again.
    Status(i32),
    /// The caller sleeps; when it is dispatched it asks again.
    Blocked,
}

/// The answer of exit and thread exit.
#[must_use]
#[derive(Clone, Copy, PartialEq, Eq, Hash, Debug)]
pub enum Exited {
    /// The caller is ZOMBIE.
    Gone,
    /// A thread of the caller is alive. The caller sleeps; when it is dispatched it asks again.
    Blocked,
}
