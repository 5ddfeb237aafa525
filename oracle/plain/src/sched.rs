//! Dispatch, yield, sleep, wake, kill, grow.

use crate::table::{settle, Table, FIRST_DEVICE, SIZE_TOP};
use text::{Answer, Refusal, State};

impl Table {
    pub fn dispatch(&mut self, hart: u64) -> Answer {
        let Some(runs) = self.harts.get_mut(hart as usize) else {
            return Answer::Refused(Refusal::NoSuchHart);
        };
        if runs.is_some() {
            return Answer::Refused(Refusal::HartBusy);
        }
        let Some(head) = self.queue.pop_front() else {
            return Answer::Refused(Refusal::QueueEmpty);
        };
        *runs = Some(head);
        let slot = &mut self.slots[usize::from(head)];
        slot.state = State::Running;
        slot.queued = false;
        slot.channel = 0;
        Answer::Slot(usize::from(head))
    }

    pub fn yielding(&mut self, hart: u64) -> Answer {
        settle(self.caller(hart).map(|slot| {
            self.harts[hart as usize] = None;
            self.publish(slot);
            Answer::Done
        }))
    }

    pub fn sleep(&mut self, hart: u64, channel: u64) -> Answer {
        settle(self.caller(hart).and_then(|slot| {
            if channel < FIRST_DEVICE {
                return Err(Refusal::NotADevice);
            }
            self.fall_asleep(hart, slot, channel);
            Ok(Answer::Done)
        }))
    }

    pub fn wake(&mut self, channel: u64) -> Answer {
        if channel < FIRST_DEVICE {
            return Answer::Refused(Refusal::NotADevice);
        }
        self.wake_channel(channel);
        Answer::Done
    }

    pub fn kill(&mut self, pid: u64) -> Answer {
        let victim = self.find(|slot| slot.state != State::Unused && slot.pid == pid);
        match victim {
            None => Answer::Refused(Refusal::NoneSuch),
            Some(slot) => {
                self.slay(slot);
                Answer::Done
            }
        }
    }

    pub fn grow(&mut self, hart: u64, count: i64, memory: bool) -> Answer {
        settle(self.caller(hart).and_then(|slot| {
            let group =
                &mut self.groups[usize::from(self.slots[slot].group.ok_or(Refusal::NoGroup)?)];
            let size = group.size.checked_add_signed(count);
            let size = size.filter(|&size| size <= SIZE_TOP);
            let size = size.ok_or(Refusal::SizeOutOfLimits)?;
            if count > 0 && !memory {
                return Err(Refusal::NoMemory);
            }
            group.size = size;
            Ok(Answer::Done)
        }))
    }
}
