//! Lists of calls that look at the table they are made for.

use crate::added::hart_of;
use crate::rng::Rng;
use text::{Answer, Call, State, View, HARTS, SLOTS};

#[derive(Clone, Copy, PartialEq, Eq, Debug)]
pub enum Kind {
    /// Near to what programs do.
    Programs,
    /// Any call with any number.
    Wild,
}

/// How a list's programs are inclined.
#[derive(Clone, Copy)]
struct Bent {
    harts: usize,
    /// How much more often slots are taken.
    births: usize,
    threads: usize,
    spawns: usize,
    /// How soon init is made, in percent of the calls before it.
    boots: usize,
    length: usize,
}

const PLAIN: Bent = Bent {
    harts: 3,
    births: 1,
    threads: 1,
    spawns: 1,
    boots: 80,
    length: 120,
};

const BENTS: [Bent; 7] = [
    PLAIN,
    Bent {
        threads: 4,
        ..PLAIN
    },
    Bent {
        harts: 8,
        threads: 2,
        length: 200,
        ..PLAIN
    },
    Bent {
        spawns: 12,
        ..PLAIN
    },
    Bent {
        harts: 1,
        length: 60,
        ..PLAIN
    },
    Bent {
        harts: 8,
        births: 30,
        threads: 3,
        spawns: 6,
        length: 320,
        ..PLAIN
    },
    Bent {
        spawns: 60,
        boots: 1,
        length: 160,
        ..PLAIN
    },
];

/// How often each list's bent comes; full tables are long to show.
const BENT_WEIGHTS: [usize; 7] = [30, 30, 15, 12, 11, 1, 1];

#[derive(Clone, Copy)]
enum Act {
    Fork,
    Thread,
    Wait,
    Join,
    Exit,
    ThreadExit,
    Yield,
    Sleep,
    Grow,
    Return,
}

const ACTS: [Act; 10] = [
    Act::Fork,
    Act::Thread,
    Act::Wait,
    Act::Join,
    Act::Exit,
    Act::ThreadExit,
    Act::Yield,
    Act::Sleep,
    Act::Grow,
    Act::Return,
];

const OF_INIT: [usize; 10] = [30, 10, 25, 8, 1, 1, 6, 6, 5, 1];
const OF_LEADER: [usize; 10] = [15, 22, 12, 12, 18, 3, 8, 8, 6, 1];
const OF_THREAD: [usize; 10] = [8, 10, 8, 12, 1, 28, 10, 10, 4, 1];
const OF_SYSTEM: [usize; 10] = [1, 1, 2, 2, 1, 1, 25, 30, 2, 30];

/// Makes one list.
pub struct Picker {
    rng: Rng,
    kind: Kind,
    bent: Bent,
    left: usize,
    /// The blocked call of each slot, which its program asks again.
    pending: [Option<Call>; SLOTS],
    caller: Option<usize>,
}

impl Picker {
    pub fn new(seed: u64, kind: Kind) -> Self {
        let mut rng = Rng::new(seed);
        let bent = BENTS[rng.weighed(&BENT_WEIGHTS)];
        Self {
            left: bent.length / 2 + rng.below(bent.length),
            rng,
            kind,
            bent,
            pending: [const { None }; SLOTS],
            caller: None,
        }
    }

    /// The next call of the list, on that table.
    pub fn next(&mut self, view: &View) -> Option<Call> {
        self.left = self.left.checked_sub(1)?;
        let wild = self.kind == Kind::Wild && self.rng.percent(60);
        let call = if wild {
            self.any_call(view)
        } else {
            self.likely(view)
        };
        let hart = hart_of(&call).map(|hart| hart as usize);
        self.caller = hart.and_then(|hart| *view.harts.get(hart)?);
        Some(call)
    }

    /// What was answered, so that a blocked call is asked again.
    pub fn saw(&mut self, call: &Call, answer: &Answer) {
        let Some(caller) = self.caller.take() else {
            return;
        };
        self.pending[caller] = (*answer == Answer::Blocked).then(|| call.clone());
    }

    fn likely(&mut self, view: &View) -> Call {
        let full = view.slots.iter().all(|slot| slot.state != State::Unused);
        let boots = if full { 20 } else { self.bent.boots };
        if view.init.is_none() && self.rng.percent(boots) {
            return Call::Boot;
        }
        let ready = |slot: usize| view.slots[slot].state == State::Allocated;
        if view.init.is_some_and(ready) && self.rng.percent(80) {
            return Call::Start;
        }
        let harts = 0..self.bent.harts.min(HARTS);
        let (busy, idle): (Vec<_>, Vec<_>) = harts.partition(|&h| view.harts[h].is_some());
        let dispatch = match (busy.is_empty(), self.bent.boots) {
            (_, 0..10) => 3,
            (true, _) => 90,
            (false, _) => 35,
        };
        if !view.queue.is_empty() && self.rng.percent(dispatch) {
            if let Some(hart) = self.rng.one(&idle) {
                return Call::Dispatch(hart as u64);
            }
        }
        let outside = (8 + 2 * self.bent.spawns).min(80);
        match self.rng.one(&busy) {
            Some(hart) if !self.rng.percent(outside) => self.by_slot(view, hart),
            _ => self.outside(view),
        }
    }

    fn outside(&mut self, view: &View) -> Call {
        let weights = [30, 20, 6 * self.bent.spawns, 6, 2, 1];
        match self.rng.weighed(&weights) {
            0 => Call::Wake(self.rng.woken(view)),
            1 => Call::Kill(self.rng.pid(view)),
            2 => Call::Spawn {
                name: self.rng.name(),
                entry: self.rng.wild(),
            },
            3 => Call::Dispatch(self.rng.below(HARTS) as u64),
            4 => Call::List(None),
            _ => Call::List(Some(self.rng.number() % 300)),
        }
    }

    fn by_slot(&mut self, view: &View, hart: usize) -> Call {
        let Some(slot) = view.harts[hart] else {
            return Call::Dispatch(hart as u64);
        };
        if let Some(call) = &self.pending[slot] {
            if self.rng.percent(88) {
                return on_hart(call, hart as u64);
            }
        }
        let one = &view.slots[slot];
        let mut weights = match (view.init == Some(slot), one.system, one.thread) {
            (true, _, _) => OF_INIT,
            (_, true, _) => OF_SYSTEM,
            (_, _, true) => OF_THREAD,
            _ => OF_LEADER,
        };
        weights[Act::Fork as usize] *= self.bent.births;
        weights[Act::Thread as usize] *= self.bent.births * self.bent.threads;
        if one.killed {
            weights[Act::Exit as usize] *= 4;
            weights[Act::ThreadExit as usize] *= 3;
        }
        let act = ACTS[self.rng.weighed(&weights)];
        self.act(act, view, hart as u64, slot)
    }

    fn act(&mut self, act: Act, view: &View, hart: u64, slot: usize) -> Call {
        let size = view.slots[slot].size;
        let rng = &mut self.rng;
        match act {
            Act::Fork => Call::Fork {
                hart,
                memory: rng.percent(95),
            },
            Act::Thread => self.thread(hart, size),
            Act::Wait => Call::Wait {
                hart,
                wish: rng.wish(),
            },
            Act::Join => Call::Join {
                hart,
                pid: rng.thread_of(view, slot),
                wish: rng.wish(),
            },
            Act::Exit => Call::Exit {
                hart,
                status: rng.status(),
            },
            Act::ThreadExit => Call::ThreadExit {
                hart,
                status: rng.status(),
            },
            Act::Yield => Call::Yield(hart),
            Act::Sleep => Call::Sleep {
                hart,
                channel: rng.device(),
            },
            Act::Grow => Call::Grow {
                hart,
                count: rng.count(size),
                memory: rng.percent(90),
            },
            Act::Return => Call::SystemReturn(hart),
        }
    }

    fn thread(&mut self, hart: u64, size: u64) -> Call {
        let rng = &mut self.rng;
        Call::Thread {
            hart,
            entry: rng.address(size),
            arg: rng.wild(),
            stack: rng.stack(size),
            ret: rng.address(size),
            mapped: [(); 4].map(|()| rng.percent(98)),
        }
    }

    fn any_call(&mut self, view: &View) -> Call {
        match self.rng.below(20) {
            0 => Call::Boot,
            1 => Call::Start,
            2 => Call::Spawn {
                name: self.rng.name(),
                entry: self.rng.wild(),
            },
            3 => Call::Dispatch(self.rng.wild_hart()),
            4 => Call::Wake(self.rng.wild()),
            5 => Call::Kill(self.rng.wild()),
            6 => Call::Kill(self.rng.pid(view)),
            7 => Call::List(Some(self.rng.wild())),
            _ => self.any_of_slot(),
        }
    }

    fn any_of_slot(&mut self) -> Call {
        let rng = &mut self.rng;
        let hart = match rng.percent(50) {
            true => rng.wild_hart(),
            false => rng.below(self.bent.harts) as u64,
        };
        match rng.below(12) {
            0 => Call::Sleep {
                hart,
                channel: rng.wild(),
            },
            1 => Call::Join {
                hart,
                pid: rng.wild(),
                wish: rng.wish(),
            },
            2 => Call::Grow {
                hart,
                count: rng.wild() as i64,
                memory: rng.percent(50),
            },
            3 => Call::Thread {
                hart,
                entry: rng.wild(),
                arg: rng.wild(),
                stack: rng.wild(),
                ret: rng.wild(),
                mapped: [(); 4].map(|()| rng.percent(70)),
            },
            n => self.any_act(n, hart),
        }
    }

    fn any_act(&mut self, n: usize, hart: u64) -> Call {
        let rng = &mut self.rng;
        match n {
            4 => Call::Fork {
                hart,
                memory: rng.percent(50),
            },
            5..7 => Call::Wait {
                hart,
                wish: rng.wish(),
            },
            7 => Call::Exit {
                hart,
                status: rng.wild(),
            },
            8 => Call::ThreadExit {
                hart,
                status: rng.wild(),
            },
            9 => Call::SystemReturn(hart),
            _ => Call::Yield(hart),
        }
    }
}

/// The same call on another hart.
fn on_hart(call: &Call, to: u64) -> Call {
    let mut call = call.clone();
    match &mut call {
        Call::Wait { hart, .. }
        | Call::Join { hart, .. }
        | Call::Exit { hart, .. }
        | Call::ThreadExit { hart, .. } => *hart = to,
        _ => {}
    }
    call
}
