//! What a slot holds.

use crate::answer::impossible;
use crate::raw::Sight;
use crate::{Channel, Group, Pid, Slot};
use core::fmt;

/// A slot's state.
#[derive(Clone, Copy, PartialEq, Eq, Hash, Debug)]
pub enum State {
    /// Free.
    Unused,
    /// Taken, and not yet published: init before it is started.
    Allocated,
    /// In the queue.
    Runnable,
    /// On a hart.
    Running,
    /// On its channel, until that is woken or the slot is killed.
    Sleeping,
    /// Ended, and not yet waited for or joined.
    Zombie,
}

impl State {
    /// `state_code` in crates/rules/specs/Model.antt.
    #[inline]
    fn coded(code: u64) -> Option<State> {
        Some(match code {
            0 => State::Unused,
            1 => State::Allocated,
            2 => State::Runnable,
            3 => State::Running,
            4 => State::Sleeping,
            5 => State::Zombie,
            _ => return None,
        })
    }
}

impl fmt::Display for State {
    /// As the listing has it.
    fn fmt(&self, to: &mut fmt::Formatter<'_>) -> fmt::Result {
        to.pad(match self {
            State::Unused => "UNUSED",
            State::Allocated => "ALLOCATED",
            State::Runnable => "RUNNABLE",
            State::Running => "RUNNING",
            State::Sleeping => "SLEEPING",
            State::Zombie => "ZOMBIE",
        })
    }
}

/// What a slot holds. One that is UNUSED has zeros and nothing else. New fields may come.
#[derive(Clone, Copy, PartialEq, Eq, Hash, Debug)]
#[non_exhaustive]
pub struct SlotView {
    /// Its state.
    pub state: State,
    /// What it sleeps on, or was woken from: dispatch clears it.
    pub channel: Channel,
    /// Marked by kill, or by the exit of its process.
    pub killed: bool,
    /// What it ended with, once ZOMBIE.
    pub status: u64,
    /// Its number.
    pub pid: Pid,
    /// Does it stand in the queue?
    pub queued: bool,
    /// Its address space. A system thread has none.
    pub group: Option<Group>,
    /// Who made it, or init after that one's end. Init and system threads have none.
    pub parent: Option<Slot>,
    /// Is it a thread of a process?
    pub thread: bool,
    /// Is it a system thread?
    pub system: bool,
}

/// None is 0, a number one more than itself.
#[inline]
fn place(word: u64) -> Option<usize> {
    word.checked_sub(1).map(|number| number as usize)
}

impl SlotView {
    /// `slot_words` in crates/sights/specs/Sights.antt.
    #[inline]
    pub(crate) fn of(words: Sight) -> SlotView {
        let [state, channel, killed, status, pid, queued, group, parent, thread, system] = words;
        SlotView {
            state: State::coded(state).unwrap_or_else(|| impossible(0, &words)),
            channel: Channel(channel),
            killed: killed == 1,
            status,
            pid: Pid(pid),
            queued: queued == 1,
            group: place(group).map(Group),
            parent: place(parent).map(Slot),
            thread: thread == 1,
            system: system == 1,
        }
    }
}
