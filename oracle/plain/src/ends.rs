//! Exit and thread exit.

use crate::table::{own_channel, settle, Table, SLOTS};
use text::{Answer, Refusal, State};

impl Table {
    /// Each slot whose parent is the caller gets init, and for each init's channel is woken.
    fn reparent(&mut self, caller: usize) {
        for slot in 0..SLOTS {
            if self.slots[slot].parent == Some(caller as u8) {
                self.slots[slot].parent = self.init;
                if let Some(init) = self.init {
                    self.wake_channel(own_channel(usize::from(init)));
                }
            }
        }
    }

    fn die(&mut self, hart: u64, caller: usize, status: u64) {
        self.slots[caller].status = status;
        self.slots[caller].state = State::Zombie;
        self.harts[hart as usize] = None;
    }

    pub fn thread_exit(&mut self, hart: u64, status: u64) -> Answer {
        settle(self.caller(hart).and_then(|caller| {
            if self.slots[caller].system || self.init == Some(caller as u8) {
                return Err(Refusal::WrongWayOut);
            }
            if !self.slots[caller].thread {
                return Ok(self.leader_exit(hart, caller, status));
            }
            self.reparent(caller);
            self.wake_channel(own_channel(caller));
            self.die(hart, caller, status);
            Ok(Answer::Done)
        }))
    }

    pub fn exit(&mut self, hart: u64, status: u64) -> Answer {
        settle(self.caller(hart).and_then(|caller| {
            let slot = &self.slots[caller];
            if slot.system || slot.thread || self.init == Some(caller as u8) {
                return Err(Refusal::WrongWayOut);
            }
            Ok(self.leader_exit(hart, caller, status))
        }))
    }

    fn leader_exit(&mut self, hart: u64, caller: usize, status: u64) -> Answer {
        let group = self.slots[caller].group;
        while let Some(thread) = self.find(|slot| slot.thread && slot.group == group) {
            if self.slots[thread].state == State::Zombie {
                self.free(thread);
                continue;
            }
            self.slay(thread);
            self.fall_asleep(hart, caller, own_channel(thread));
            return Answer::Blocked;
        }
        self.reparent(caller);
        if let Some(parent) = self.slots[caller].parent {
            self.wake_channel(own_channel(usize::from(parent)));
        }
        self.die(hart, caller, status);
        Answer::Done
    }
}
