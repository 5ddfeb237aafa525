//! The table, and what its calls share.

use std::collections::VecDeque;
use text::{Answer, Refusal, State};

pub const SLOTS: usize = 64;
pub const HARTS: usize = 8;
pub const PAGE: u64 = 4096;
pub const TRAMPOLINE: u64 = (1 << 38) - PAGE;
pub const TRAPFRAME: u64 = TRAMPOLINE - PAGE;
pub const SIZE_TOP: u64 = TRAPFRAME - SLOTS as u64 * PAGE;
pub const FIRST_DEVICE: u64 = SLOTS as u64 + 1;
pub const NAME_SIZE: usize = 16;

#[derive(Clone, Copy)]
pub struct Slot {
    pub state: State,
    pub killed: bool,
    pub queued: bool,
    pub thread: bool,
    pub system: bool,
    pub parent: Option<u8>,
    pub group: Option<u8>,
    pub channel: u64,
    pub status: u64,
    pub pid: u64,
    pub trapframe: u64,
    pub sp: u64,
    pub start: Start,
    pub name: [u8; NAME_SIZE],
}

#[derive(Clone, Copy, Default)]
pub struct Start {
    pub entry: u64,
    pub top: u64,
    pub arg: u64,
    pub ret: u64,
}

impl Slot {
    pub const FREE: Slot = Slot {
        state: State::Unused,
        killed: false,
        queued: false,
        thread: false,
        system: false,
        parent: None,
        group: None,
        channel: 0,
        status: 0,
        pid: 0,
        trapframe: TRAPFRAME,
        sp: 0,
        start: Start {
            entry: 0,
            top: 0,
            arg: 0,
            ret: 0,
        },
        name: [0; NAME_SIZE],
    };

    pub fn is_thread_of(&self, group: u8) -> bool {
        self.thread && self.group == Some(group)
    }
}

#[derive(Clone, Copy, Default)]
pub struct Group {
    pub size: u64,
    pub count: u64,
}

pub struct Table {
    pub(crate) slots: [Slot; SLOTS],
    pub(crate) queue: VecDeque<u8>,
    pub(crate) harts: [Option<u8>; HARTS],
    pub(crate) groups: [Group; SLOTS],
    pub(crate) init: Option<u8>,
    pub(crate) pids: u64,
    first_pids: u64,
}

pub fn kernel_stack(slot: usize) -> u64 {
    TRAMPOLINE - (slot as u64 + 1) * 5 * PAGE
}

pub fn own_channel(slot: usize) -> u64 {
    slot as u64 + 1
}

impl Default for Table {
    fn default() -> Self {
        Self::new()
    }
}

impl Table {
    pub fn new() -> Self {
        Self::from_pids(0)
    }

    /// A fresh table whose pid counter starts elsewhere, for no list of calls reaches its top.
    pub fn from_pids(first_pids: u64) -> Self {
        Self {
            slots: [Slot::FREE; SLOTS],
            queue: VecDeque::with_capacity(SLOTS),
            harts: [None; HARTS],
            groups: [Group::default(); SLOTS],
            init: None,
            pids: first_pids,
            first_pids,
        }
    }

    /// Fresh again, in the same memory.
    pub fn reset(&mut self) {
        self.slots = [Slot::FREE; SLOTS];
        self.queue.clear();
        self.harts = [None; HARTS];
        self.groups = [Group::default(); SLOTS];
        self.init = None;
        self.pids = self.first_pids;
    }

    /// The slot that the hart runs.
    #[inline]
    pub(crate) fn caller(&self, hart: u64) -> Result<usize, Refusal> {
        match self.harts.get(hart as usize) {
            None => Err(Refusal::NoSuchHart),
            Some(None) => Err(Refusal::HartIdle),
            Some(Some(slot)) => Ok(usize::from(*slot)),
        }
    }

    #[inline]
    pub(crate) fn group_of(&self, slot: usize) -> Result<u8, Refusal> {
        self.slots[slot].group.ok_or(Refusal::NoGroup)
    }

    #[inline]
    pub(crate) fn publish(&mut self, slot: usize) {
        self.slots[slot].state = State::Runnable;
        self.slots[slot].queued = true;
        self.queue.push_back(slot as u8);
    }

    pub(crate) fn wake_channel(&mut self, channel: u64) {
        for slot in 0..SLOTS {
            let one = &self.slots[slot];
            if one.state == State::Sleeping && one.channel == channel {
                self.publish(slot);
            }
        }
    }

    /// Marks the slot, and publishes it if it sleeps.
    pub(crate) fn slay(&mut self, slot: usize) {
        self.slots[slot].killed = true;
        if self.slots[slot].state == State::Sleeping {
            self.publish(slot);
        }
    }

    /// The caller stops RUNNING and its hart is idle.
    #[inline]
    pub(crate) fn fall_asleep(&mut self, hart: u64, slot: usize, channel: u64) {
        self.slots[slot].channel = channel;
        self.slots[slot].state = State::Sleeping;
        self.harts[hart as usize] = None;
    }

    pub(crate) fn free(&mut self, slot: usize) {
        if let Some(group) = self.slots[slot].group {
            let group = &mut self.groups[usize::from(group)];
            group.count -= 1;
            if group.count == 0 {
                group.size = 0;
            }
        }
        self.slots[slot] = Slot::FREE;
    }

    pub(crate) fn find(&self, test: impl Fn(&Slot) -> bool) -> Option<usize> {
        self.slots.iter().position(test)
    }
}

/// An answer from a result.
pub fn settle(result: Result<Answer, Refusal>) -> Answer {
    result.unwrap_or_else(Answer::Refused)
}
