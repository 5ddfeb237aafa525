//! Boot, start, spawn, fork, thread creation, system return.

use crate::table::{kernel_stack, settle, Group, Slot, Start, Table};
use crate::table::{NAME_SIZE, PAGE, SLOTS, TRAPFRAME};
use text::{Answer, Refusal, State};

/// What a new thread is asked to be, with the host's answers.
#[derive(Clone, Copy, Default)]
pub struct Ask {
    pub entry: u64,
    pub arg: u64,
    pub stack: u64,
    pub ret: u64,
    pub mapped: [bool; 4],
}

impl Table {
    /// The pid counter goes up first; the lowest UNUSED slot wins.
    fn take_slot(&mut self) -> Result<usize, Refusal> {
        if self.pids == u64::MAX {
            return Err(Refusal::PidsSpent);
        }
        self.pids += 1;
        self.find(|slot| slot.state == State::Unused)
            .ok_or(Refusal::TableFull)
    }

    fn open_group(&mut self, size: u64) -> u8 {
        // Each group in use has a slot, and a slot was free.
        let group = self.groups.iter().position(|group| group.count == 0);
        let group = group.unwrap_or(0);
        self.groups[group] = Group { size, count: 1 };
        group as u8
    }

    fn user_slot(&self, slot: usize) -> Slot {
        Slot {
            state: State::Allocated,
            pid: self.pids,
            sp: kernel_stack(slot) + PAGE,
            ..Slot::FREE
        }
    }

    pub fn boot(&mut self) -> Answer {
        if self.init.is_some() {
            return Answer::Refused(Refusal::InitOutOfTurn);
        }
        settle(self.take_slot().map(|slot| {
            let group = self.open_group(PAGE);
            let mut name = [0; NAME_SIZE];
            name[..8].copy_from_slice(b"initname");
            self.slots[slot] = Slot {
                group: Some(group),
                start: Start {
                    top: 4 * PAGE,
                    ..Start::default()
                },
                name,
                ..self.user_slot(slot)
            };
            self.init = Some(slot as u8);
            Answer::Pid(self.pids)
        }))
    }

    pub fn start(&mut self) -> Answer {
        match self.init.map(usize::from) {
            Some(slot) if self.slots[slot].state == State::Allocated => {
                self.publish(slot);
                Answer::Done
            }
            _ => Answer::Refused(Refusal::InitOutOfTurn),
        }
    }

    pub fn spawn(&mut self, name: &[u8], entry: u64) -> Answer {
        if name.len() > NAME_SIZE {
            return Answer::Refused(Refusal::NameTooLong);
        }
        settle(self.take_slot().map(|slot| {
            let mut padded = [0; NAME_SIZE];
            padded[..name.len()].copy_from_slice(name);
            self.slots[slot] = Slot {
                state: State::Allocated,
                pid: self.pids,
                system: true,
                sp: kernel_stack(slot) + 4 * PAGE,
                start: Start {
                    entry,
                    ..Start::default()
                },
                name: padded,
                ..Slot::FREE
            };
            self.publish(slot);
            Answer::Pid(self.pids)
        }))
    }

    pub fn system_return(&mut self, hart: u64) -> Answer {
        settle(self.caller(hart).and_then(|slot| {
            if !self.slots[slot].system {
                return Err(Refusal::WrongWayOut);
            }
            self.harts[hart as usize] = None;
            self.free(slot);
            Ok(Answer::Done)
        }))
    }

    pub fn fork(&mut self, hart: u64, memory: bool) -> Answer {
        settle(self.try_fork(hart, memory))
    }

    fn try_fork(&mut self, hart: u64, memory: bool) -> Result<Answer, Refusal> {
        let caller = self.caller(hart)?;
        let group = self.group_of(caller)?;
        let child = self.take_slot()?;
        if !memory {
            return Err(Refusal::NoMemory);
        }
        let group = self.open_group(self.groups[usize::from(group)].size);
        self.slots[child] = Slot {
            group: Some(group),
            parent: Some(caller as u8),
            name: self.slots[caller].name,
            ..self.user_slot(child)
        };
        self.publish(child);
        Ok(Answer::Pid(self.pids))
    }

    pub fn thread(&mut self, hart: u64, ask: &Ask) -> Answer {
        settle(self.try_thread(hart, ask))
    }

    fn try_thread(&mut self, hart: u64, ask: &Ask) -> Result<Answer, Refusal> {
        let caller = self.caller(hart)?;
        let group = self.group_of(caller)?;
        let size = self.groups[usize::from(group)].size;
        let top = ask.stack.checked_add(PAGE).ok_or(Refusal::BadAddress)?;
        if !ask.stack.is_multiple_of(PAGE) || top > size || ask.entry >= size || ask.ret >= size {
            return Err(Refusal::BadAddress);
        }
        if ask.mapped != [true; 4] {
            return Err(Refusal::Unmapped);
        }
        let slot = self.take_slot()?;
        let by = self.slots[caller];
        self.groups[usize::from(group)].count += 1;
        self.slots[slot] = Slot {
            thread: true,
            group: Some(group),
            parent: if by.thread {
                by.parent
            } else {
                Some(caller as u8)
            },
            trapframe: TRAPFRAME - (slot as u64 + 1) * PAGE,
            start: Start {
                entry: ask.entry,
                top,
                arg: ask.arg,
                ret: ask.ret,
            },
            name: by.name,
            ..self.user_slot(slot)
        };
        self.publish(slot);
        Ok(Answer::Pid(self.pids))
    }
}

const _: () = assert!(SLOTS <= 256, "slot numbers are kept in a byte");
