//! Lists of calls like those of a busy kernel, made by looking at a plain table that runs along.

use plain::Table;
use text::{Call, Lane, SlotView, State, View, Wish};

/// What a list is made of.
#[derive(Clone, Copy)]
pub enum Mix {
    /// Dispatch, yield, sleep and grow, which look at one slot, and a wake where a hart finds nothing to run.
    Turns,
    /// Wake, kill, wait and join, which look through the table, beside dispatch and yield.
    Scans,
    /// Every call, as programs make them that fork, make threads, wait for devices and end.
    Mixed,
}

pub const ALL: [(Mix, &str); 3] = [
    (Mix::Turns, "turns"),
    (Mix::Scans, "scans"),
    (Mix::Mixed, "mixed"),
];

const FIRST_DEVICE: u64 = 65;
const DEVICES: u64 = 8;
/// Init makes a new program only if so many slots are free.
const SPARE: usize = 16;

/// xorshift64*
struct Dice(u64);

impl Dice {
    fn new(seed: u64) -> Self {
        Dice(seed.wrapping_mul(2) ^ 0x9E37_79B9_7F4A_7C15)
    }

    fn below(&mut self, top: u64) -> u64 {
        self.0 ^= self.0 >> 12;
        self.0 ^= self.0 << 25;
        self.0 ^= self.0 >> 27;
        (self.0.wrapping_mul(0x2545_F491_4F6C_DD1D) >> 33) % top
    }

    fn device(&mut self) -> u64 {
        FIRST_DEVICE + self.below(DEVICES)
    }
}

/// A table that is under way: 35 slots in use, every hart busy.
fn opening() -> Vec<Call> {
    let mut calls = vec![Call::Boot, Call::Start, Call::Dispatch(0)];
    let (hart, memory) = (0, true);
    calls.push(Call::Grow {
        hart,
        count: 1 << 20,
        memory,
    });
    calls.extend((0..30).map(|_| Call::Fork { hart, memory }));
    calls.extend((0..4).map(|n| thread(hart, n)));
    calls.extend((1..8).map(Call::Dispatch));
    calls
}

fn thread(hart: u64, arg: u64) -> Call {
    Call::Thread {
        hart,
        entry: 64,
        arg,
        stack: 4096,
        ret: 128,
        mapped: [true; 4],
    }
}

struct Maker {
    mix: Mix,
    dice: Dice,
    view: View,
}

impl Maker {
    fn next(&mut self, table: &mut Table) -> Call {
        let hart = self.dice.below(plain::HARTS as u64);
        table.view(&mut self.view);
        match self.view.harts[hart as usize] {
            None if self.view.queue.is_empty() => self.stir(),
            None => Call::Dispatch(hart),
            Some(slot) => match self.mix {
                Mix::Turns => self.turn(hart),
                Mix::Scans => self.scan(hart),
                Mix::Mixed => self.live(hart, slot),
            },
        }
    }

    /// Nothing is RUNNABLE: a device that somebody sleeps on calls, or else a sleeper is killed.
    fn stir(&mut self) -> Call {
        let asleep = |slot: &&SlotView| slot.state == State::Sleeping;
        let on_device = |slot: &&SlotView| asleep(slot) && slot.channel >= FIRST_DEVICE;
        if let Some(slot) = self.view.slots.iter().find(on_device) {
            return Call::Wake(slot.channel);
        }
        let sleeper = self.view.slots.iter().find(asleep);
        Call::Kill(sleeper.map_or(1, |slot| slot.pid))
    }

    fn turn(&mut self, hart: u64) -> Call {
        let count = 16 - self.dice.below(33) as i64;
        match self.dice.below(100) {
            0..=24 => Call::Sleep {
                hart,
                channel: self.dice.device(),
            },
            25..=34 => Call::Grow {
                hart,
                count,
                memory: true,
            },
            _ => Call::Yield(hart),
        }
    }

    fn scan(&mut self, hart: u64) -> Call {
        let pid = self.view.pids.saturating_sub(self.dice.below(48));
        match self.dice.below(100) {
            0..=39 => Call::Wake(self.dice.device()),
            40..=54 => Call::Kill(pid),
            55..=64 => Call::Join {
                hart,
                pid,
                wish: Wish::Writable,
            },
            65..=74 => Call::Wait {
                hart,
                wish: Wish::Writable,
            },
            75..=84 => Call::Sleep {
                hart,
                channel: self.dice.device(),
            },
            _ => Call::Yield(hart),
        }
    }

    /// What the program in this slot does next.
    fn live(&mut self, hart: u64, slot: usize) -> Call {
        let own = self.view.slots[slot];
        let used = |slot: &&SlotView| slot.state != State::Unused;
        let free = plain::SLOTS - self.view.slots.iter().filter(used).count();
        let (memory, wish) = (true, Wish::Writable);
        let dice = self.dice.below(100);
        if self.view.init == Some(slot) {
            return match free > SPARE {
                true => Call::Fork { hart, memory },
                false => Call::Wait { hart, wish },
            };
        }
        match dice {
            0..=29 => Call::Yield(hart),
            30..=59 => Call::Sleep {
                hart,
                channel: self.dice.device(),
            },
            60..=79 => Call::Wake(self.dice.device()),
            80..=84 => Call::Grow {
                hart,
                count: 16,
                memory,
            },
            85..=88 if !own.thread => Call::Wait { hart, wish },
            89..=91 if free > SPARE / 2 => Call::Fork { hart, memory },
            92..=94 if free > SPARE / 2 => thread(hart, dice),
            95 => Call::Join {
                hart,
                pid: self.thread_beside(slot),
                wish,
            },
            96 => Call::Kill(self.view.pids.saturating_sub(self.dice.below(48))),
            _ if own.thread => Call::ThreadExit { hart, status: dice },
            _ => Call::Exit { hart, status: dice },
        }
    }

    /// The pid of another thread of the same program, or 0.
    fn thread_beside(&self, slot: usize) -> u64 {
        let group = self.view.slots[slot].group;
        let beside =
            |(n, other): &(usize, &SlotView)| *n != slot && other.thread && other.group == group;
        let found = self.view.slots.iter().enumerate().find(beside);
        found.map_or(0, |(_, other)| other.pid)
    }
}

/// The opening and `count` calls more; `table` has made them all in the end.
pub fn list(mix: Mix, count: usize, seed: u64, table: &mut Table) -> Vec<Call> {
    let mut maker = Maker {
        mix,
        dice: Dice::new(seed),
        view: View::default(),
    };
    let mut calls = opening();
    for call in &calls {
        table.answer(call);
    }
    for _ in 0..count {
        let call = maker.next(table);
        table.answer(&call);
        calls.push(call);
    }
    calls
}
