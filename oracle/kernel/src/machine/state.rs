//! What the harness knows of the machine.

use super::calls::{Reply, Request};
use crate::arch::riscv::qemu::param::{NCPU, NPROC};
use alloc::string::String;
use core::cell::UnsafeCell;

#[derive(Clone, Copy, PartialEq, Debug)]
pub enum Place {
    Outside,
    Slot(usize),
    Scheduler(usize),
}

pub struct Machine {
    /// The hart that the running code believes to be on.
    pub hart: usize,
    pub interrupts: [bool; NCPU],
    pub place: Place,
    /// Where the harness itself goes on.
    pub outside: usize,
    /// Where a context that stands still goes on: the slots, then the schedulers. 0: not begun.
    pub paused: [usize; NPROC + NCPU],
    /// The running slot has come back from `switch` and has not been in user mode since.
    pub came_back: bool,
    /// The slot stands between coming back from `sleep` and its next look.
    pub between_looks: [bool; NPROC],
    /// The call in which a slot is, or was last.
    pub asked: [Request; NPROC],
    pub reply: Option<Reply>,
    /// The slot that goes on shall give up its call.
    pub give_up: bool,
    /// Looks at the interrupt flag since the harness was left.
    pub steps: usize,
    /// Why nothing more can be asked of this table.
    pub dead: Option<String>,
}

impl Machine {
    const fn new() -> Self {
        Self {
            hart: 0,
            interrupts: [true; NCPU],
            place: Place::Outside,
            outside: 0,
            paused: [0; NPROC + NCPU],
            came_back: false,
            between_looks: [false; NPROC],
            asked: [Request::Yield; NPROC],
            reply: None,
            give_up: false,
            steps: 0,
            dead: None,
        }
    }
}

struct Shared(UnsafeCell<Machine>);

// SAFETY: one OS thread runs everything; `calls::fresh` sees to it.
unsafe impl Sync for Shared {}

static MACHINE: Shared = Shared(UnsafeCell::new(Machine::new()));

/// The machine. No caller keeps the reference while another context runs.
pub fn machine() -> &'static mut Machine {
    // SAFETY: see above; each use is a short one.
    unsafe { &mut *MACHINE.0.get() }
}

pub fn reset() {
    *machine() = Machine::new();
}

/// The number of a context's stack.
pub fn stack_of(place: Place) -> usize {
    match place {
        Place::Slot(slot) => slot,
        Place::Scheduler(hart) => NPROC + hart,
        Place::Outside => unreachable!("the harness has the thread's own stack"),
    }
}
