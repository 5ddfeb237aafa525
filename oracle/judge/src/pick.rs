//! Arguments: likely ones, and the limits of every number.

use crate::rng::Rng;
use text::{SlotView, State, View, Wish, HARTS, SLOTS};

const LIMITS: [u64; 26] = [
    0,
    1,
    2,
    63,
    64,
    65,
    66,
    4095,
    4096,
    8192,
    16384,
    (1 << 31) - 1,
    1 << 31,
    (1 << 32) - 1,
    1 << 32,
    274_877_632_512,
    274_877_636_608,
    274_877_898_752,
    274_877_902_848,
    1 << 38,
    (1 << 63) - 1,
    1 << 63,
    u64::MAX - 8192,
    u64::MAX - 4096,
    u64::MAX - 4095,
    u64::MAX,
];

const DEVICES: [u64; 5] = [65, 66, 67, 1000, u64::MAX];

impl Rng {
    /// A limit, or a number next to one, or any number.
    pub fn wild(&mut self) -> u64 {
        let limit = LIMITS[self.below(LIMITS.len())];
        match self.below(8) {
            0 => limit.wrapping_add(1),
            1 => limit.wrapping_sub(1),
            2 => self.number(),
            3 => self.number() % 70,
            _ => limit,
        }
    }

    pub fn wild_hart(&mut self) -> u64 {
        match self.below(20) {
            0 => 8,
            1 => self.wild(),
            _ => self.below(HARTS) as u64,
        }
    }

    pub fn status(&mut self) -> u64 {
        if self.percent(50) {
            self.number() % 10
        } else {
            self.wild()
        }
    }

    pub fn wish(&mut self) -> Wish {
        match self.below(10) {
            0..2 => Wish::NotWanted,
            2 => Wish::Unwritable,
            _ => Wish::Writable,
        }
    }

    pub fn device(&mut self) -> u64 {
        DEVICES[self.weighed(&[12, 6, 3, 1, 1])]
    }

    /// The channel of some sleeper, or any device.
    pub fn woken(&mut self, view: &View) -> u64 {
        let asleep: Vec<u64> = slots(view, |slot| slot.state == State::Sleeping)
            .map(|slot| slot.channel)
            .filter(|&channel| channel > SLOTS as u64)
            .collect();
        let likely = self.percent(85).then(|| self.one(&asleep)).flatten();
        likely.unwrap_or_else(|| self.device())
    }

    /// The pid of some slot, sleepers first, or one next to the counter.
    pub fn pid(&mut self, view: &View) -> u64 {
        let pids = |test: fn(&SlotView) -> bool| slots(view, test).map(|slot| slot.pid);
        let asleep: Vec<u64> = pids(|slot| slot.state == State::Sleeping).collect();
        let used: Vec<u64> = pids(|_| true).collect();
        let likely = match self.below(10) {
            0..6 => self.one(&asleep),
            6..9 => self.one(&used),
            _ => None,
        };
        likely.unwrap_or_else(|| {
            view.pids
                .saturating_add(1)
                .saturating_sub(self.number() % 5)
        })
    }

    /// The pid of some thread of the caller's group, dead ones first.
    pub fn thread_of(&mut self, view: &View, caller: usize) -> u64 {
        let group = view.slots[caller].group;
        let threads = || slots(view, move |slot| slot.thread && slot.group == group);
        let dead = threads().filter(|slot| slot.state == State::Zombie);
        let dead: Vec<u64> = dead.map(|slot| slot.pid).collect();
        let all: Vec<u64> = threads().map(|slot| slot.pid).collect();
        let likely = match self.below(10) {
            0..5 => self.one(&dead).or_else(|| self.one(&all)),
            5..9 => self.one(&all),
            _ => None,
        };
        likely.unwrap_or_else(|| self.pid(view))
    }

    /// A page of the group, mostly a good one.
    pub fn stack(&mut self, size: u64) -> u64 {
        match self.below(12) {
            0 => self.wild(),
            1 => size & !4095,
            _ => self.number() % (size / 4096).clamp(1, 16) * 4096,
        }
    }

    pub fn address(&mut self, size: u64) -> u64 {
        match self.below(16) {
            0 => self.wild(),
            1 => size,
            2 => size.wrapping_sub(1),
            _ => self.number() % size.max(1),
        }
    }

    pub fn count(&mut self, size: u64) -> i64 {
        let top = 274_877_636_608_i64.wrapping_sub(size as i64);
        match self.below(12) {
            0 => self.wild() as i64,
            1 => (self.wild() as i64).wrapping_neg(),
            2 => (size as i64).wrapping_neg() - self.below(2) as i64,
            3 => top + self.below(2) as i64,
            4 => 0,
            5..7 => -(self.below(8192) as i64),
            _ => self.below(5) as i64 * 4096 + self.below(2) as i64,
        }
    }

    pub fn name(&mut self) -> Vec<u8> {
        let length = match self.below(10) {
            0 => 0,
            1 => 15,
            2 => 16,
            3 => 17,
            4 => self.below(110),
            _ => 1 + self.below(14),
        };
        let kind = self.below(5);
        (0..length)
            .map(|_| match kind {
                0 => self.number() as u8,
                1 => [0, 10, 31, 32, 126, 127, 128, 195, 169, 255][self.below(10)],
                _ => b'a' + self.below(26) as u8,
            })
            .collect()
    }
}

/// The used slots that pass.
fn slots(view: &View, test: impl Fn(&SlotView) -> bool) -> impl Iterator<Item = &SlotView> {
    let used = view.slots.iter().filter(|s| s.state != State::Unused);
    used.filter(move |slot| test(slot))
}
