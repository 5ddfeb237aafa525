//! Wait and join.

use crate::table::{own_channel, settle, Slot, Table};
use text::{Answer, Refusal, State, Wish};

impl Table {
    pub fn wait(&mut self, hart: u64, wish: Wish) -> Answer {
        settle(self.try_wait(hart, wish))
    }

    fn try_wait(&mut self, hart: u64, wish: Wish) -> Result<Answer, Refusal> {
        let caller = self.caller(hart)?;
        let is_child = |slot: &Slot| slot.parent == Some(caller as u8) && !slot.thread;
        let dead = self.find(|slot| slot.state == State::Zombie && is_child(slot));
        if let Some(child) = dead {
            if wish == Wish::Unwritable {
                return Err(Refusal::StatusUnwritable);
            }
            let Slot { pid, status, .. } = self.slots[child];
            self.free(child);
            return Ok(Answer::Reaped(pid, status));
        }
        if self.slots[caller].killed || self.find(is_child).is_none() {
            return Err(Refusal::NoneSuch);
        }
        self.fall_asleep(hart, caller, own_channel(caller));
        Ok(Answer::Blocked)
    }

    pub fn join(&mut self, hart: u64, pid: u64, wish: Wish) -> Answer {
        settle(self.try_join(hart, pid, wish))
    }

    fn try_join(&mut self, hart: u64, pid: u64, wish: Wish) -> Result<Answer, Refusal> {
        let caller = self.caller(hart)?;
        let group = self.group_of(caller)?;
        let named = self.find(|slot| slot.is_thread_of(group) && slot.pid == pid);
        let thread = named
            .filter(|&slot| slot != caller)
            .ok_or(Refusal::NoneSuch)?;
        if self.slots[thread].state != State::Zombie {
            self.fall_asleep(hart, caller, own_channel(thread));
            return Ok(Answer::Blocked);
        }
        if wish == Wish::Unwritable {
            return Err(Refusal::StatusUnwritable);
        }
        let status = self.slots[thread].status as u32 as i32;
        self.free(thread);
        Ok(Answer::Joined(status))
    }
}
