//! Contexts: how one begins, stands still, goes on, and the kernel's `switch`.

use super::calls::{perform, Request};
use super::hooks::GivenUp;
use super::stacks;
use super::state::{machine, stack_of, Place};
use super::window;
use crate::process::Context;
use alloc::boxed::Box;
use alloc::string::{String, ToString};
use core::any::Any;
use std::panic::{catch_unwind, AssertUnwindSafe};

/// The running context stands still; the harness goes on.
pub fn pause() {
    let state = machine();
    let kept = &raw mut state.paused[stack_of(state.place)];
    state.place = Place::Outside;
    // SAFETY: the harness left itself in `outside` and waits there.
    unsafe { stacks::swap(kept, state.outside) }
}

/// The harness stands still; a context begins or goes on until some context pauses.
pub fn go_on(place: Place) {
    let state = machine();
    state.place = place;
    state.steps = 0;
    let number = stack_of(place);
    let to = match state.paused[number] {
        0 => begin(place),
        kept => kept,
    };
    // SAFETY: `to` is fresh, or was left by `pause` and not gone to since.
    unsafe { stacks::swap(&raw mut state.outside, to) }
}

fn begin(place: Place) -> usize {
    match place {
        Place::Slot(slot) => stacks::prepare(stack_of(place), begin_slot, slot),
        Place::Scheduler(hart) => stacks::prepare(stack_of(place), begin_scheduler, hart),
        Place::Outside => unreachable!("the harness begins by itself"),
    }
}

/// The kernel's `switch`: keeps where `old` is and goes to `new`.
///
/// # Safety
/// As in the kernel: `old` is the running context and `new` is not.
#[no_mangle]
pub unsafe extern "C" fn switch(old: *mut Context, new: *mut Context) {
    let place = match window::slot_of_context(new) {
        Some(slot) => Place::Slot(slot),
        None => Place::Scheduler(machine().hart),
    };
    machine().place = place;
    let to = match (*new).saved() {
        0 => begin(place),
        saved => saved,
    };
    stacks::swap((*old).saved_mut(), to);
    machine().came_back = matches!(machine().place, Place::Slot(_));
}

extern "C" fn begin_slot(slot: usize) -> ! {
    machine().came_back = false;
    let pc = window::context(slot).first_pc();
    ended(catch_unwind(|| {
        // SAFETY: init_context and init_system_thread_context wrote the address of such a function.
        let first: unsafe fn() -> ! = unsafe { core::mem::transmute(pc) };
        unsafe { first() }
    }))
}

extern "C" fn begin_scheduler(_hart: usize) -> ! {
    // SAFETY: each hart runs its scheduler once, as in the kernel.
    ended(catch_unwind(|| unsafe { window::harts().scheduler() }))
}

/// A context can only end by a panic. The table is dead then, and says why.
fn ended(end: Result<(), Box<dyn Any + Send>>) -> ! {
    machine().dead = Some(match end {
        Ok(()) => "returns where it never does".to_string(),
        Err(payload) => message(payload.as_ref()),
    });
    loop {
        pause();
    }
}

pub fn message(payload: &(dyn Any + Send)) -> String {
    if let Some(text) = payload.downcast_ref::<&str>() {
        text.to_string()
    } else if let Some(text) = payload.downcast_ref::<String>() {
        text.clone()
    } else {
        "panics without words".to_string()
    }
}

/// What a user slot does for ever: stand still until its program makes a call, and make it.
pub fn user_mode() -> ! {
    loop {
        serve();
    }
}

/// The same for a system thread, until it returns.
pub fn system_mode() {
    while serve() != Request::Return {}
}

fn serve() -> Request {
    machine().came_back = false;
    pause();
    loop {
        let Place::Slot(slot) = machine().place else {
            unreachable!("only slots serve");
        };
        let request = machine().asked[slot];
        match catch_unwind(AssertUnwindSafe(|| perform(request))) {
            Ok(reply) => {
                machine().reply = reply;
                return request;
            }
            // The program asks something else: `asked` is that already.
            Err(payload) if payload.is::<GivenUp>() => {}
            Err(payload) => ended(Err(payload)),
        }
    }
}
