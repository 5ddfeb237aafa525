//! Where the carried code meets the harness: the hart's number and the interrupt flag.

use super::contexts;
use super::state::{machine, Place};
use super::window;
use crate::arch::riscv::qemu::param::NCPU;
use alloc::boxed::Box;
use std::panic::resume_unwind;

/// More looks at the interrupt flag than any call needs: the code goes round in circles.
const STEP_LIMIT: usize = 1_000_000;

/// What a slot throws to leave a call that its program does not ask again.
pub struct GivenUp;

pub fn hart() -> usize {
    machine().hart
}

pub fn interrupts() -> bool {
    machine().interrupts[machine().hart % NCPU]
}

pub fn set_interrupts(on: bool) {
    let machine = machine();
    machine.interrupts[machine.hart % NCPU] = on;
}

/// `scheduler` turns interrupts on at the top of its loop, where they are on already; `pop_off`
/// turns them on only where they are off. So this is the loop's top: one turn ends and the hart
/// stands still until the next dispatch.
pub fn before_interrupts_on() {
    let here = machine().place;
    if matches!(here, Place::Scheduler(_)) && interrupts() {
        contexts::pause();
    }
}

/// The first thing that `push_off` does, before it changes anything. A slot that came back from
/// `sleep` and takes a lock with none held is in a loop of wait, join or exit and about to look
/// again. It stands still here until its program asks again.
pub fn before_interrupts_read() {
    let state = machine();
    state.steps += 1;
    if state.steps > STEP_LIMIT {
        state.steps = 0;
        panic!("hangs: goes round without end");
    }
    let Place::Slot(slot) = state.place else {
        return;
    };
    if !state.came_back || locks_held(state.hart) != 0 {
        return;
    }
    state.came_back = false;
    state.between_looks[slot] = true;
    contexts::pause();
    let state = machine();
    state.between_looks[slot] = false;
    if core::mem::take(&mut state.give_up) {
        resume_unwind(Box::new(GivenUp));
    }
}

/// The depth of `push_off` on a hart: 0 if it holds no lock.
pub fn locks_held(hart: usize) -> usize {
    let was = core::mem::replace(&mut machine().hart, hart);
    // SAFETY: one thread; the field is read and no reference kept.
    let depth = unsafe { window::harts().mycpu().noff };
    machine().hart = was;
    depth
}
