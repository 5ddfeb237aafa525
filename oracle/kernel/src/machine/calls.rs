//! The calls of document 01, each made of the carried function that does it.

use super::contexts::{self, message};
use super::hooks::locks_held;
use super::state::{machine, reset, Place};
use super::{entries, host, stacks, window};
use crate::arch::riscv::qemu::param::{NCPU, NPROC};
use crate::lock::spinlock::Spinlock;
use crate::memory::RawPage;
use crate::process::{CPUManager, ProcManager, Process, CPU_MANAGER, PROC_MANAGER};
use alloc::boxed::Box;
use alloc::string::{String, ToString};
use std::panic::{catch_unwind, AssertUnwindSafe};
use std::sync::OnceLock;
use std::thread::ThreadId;

/// A call by the program that a slot runs.
#[derive(Clone, Copy, PartialEq, Debug)]
pub enum Request {
    Fork,
    Thread {
        entry: usize,
        arg: usize,
        stack: usize,
        ret: usize,
    },
    Yield,
    Sleep(usize),
    Wait(usize),
    Join(usize, usize),
    Exit(usize),
    ThreadExit(usize),
    Return,
    Grow(isize),
}

/// What the carried function returned.
#[derive(Clone, Copy, PartialEq, Debug)]
pub enum Reply {
    /// The child's pid.
    Forked(Option<usize>),
    Threaded(Result<usize, &'static str>),
    Waited(Option<usize>),
    Joined(Option<usize>),
    Grown(Result<(), &'static str>),
    /// From yield or from a device's sleep.
    Back,
}

/// How a call by a slot ended, or for now.
#[derive(Clone, PartialEq, Debug)]
pub enum End {
    Returned(Reply),
    /// The slot left its hart.
    Left,
    /// A panic or a hang, by its words.
    Died(String),
}

static DEVICE: Spinlock<()> = Spinlock::new((), "device");

/// Makes the call, on the slot's own stack. An exit does not return; a wait may come back later.
pub fn perform(request: Request) -> Option<Reply> {
    // SAFETY: as in the kernel's user_trap, which does this before a system call, and as its
    // system calls do: one thread, and the caller is the slot that the hart runs.
    unsafe {
        crate::arch::riscv::sstatus::intr_on();
        let manager = window::table();
        let caller = window::harts().myproc()?;
        match request {
            Request::Fork => Some(Reply::Forked(caller.fork().map(|child| child.pid()))),
            Request::Thread {
                entry,
                arg,
                stack,
                ret,
            } => Some(Reply::Threaded(
                manager.create_user_thread(caller, entry, arg, stack, ret),
            )),
            Request::Wait(address) => Some(Reply::Waited(manager.wait(address))),
            Request::Join(pid, address) => {
                Some(Reply::Joined(manager.join_user_thread(pid, address)))
            }
            Request::Grow(count) => Some(Reply::Grown(caller.grow_proc(count))),
            Request::Return => None,
            Request::Exit(status) => manager.exit(status),
            Request::ThreadExit(status) => manager.thread_exit(status),
            Request::Yield => {
                caller.yielding();
                Some(Reply::Back)
            }
            Request::Sleep(channel) => {
                caller.sleep(channel, DEVICE.acquire());
                Some(Reply::Back)
            }
        }
    }
}

static OWNER: OnceLock<ThreadId> = OnceLock::new();

/// A fresh table, with idle harts. What stood on the stacks is forgotten.
pub fn fresh() {
    let me = std::thread::current().id();
    assert_eq!(*OWNER.get_or_init(|| me), me, "one OS thread only");
    assert!(stacks::intact(), "a stack of the harness was too small");
    reset();
    for process in window::table().get_table_mut() {
        let data = process.data.get_mut();
        if !data.trapframe.is_null() {
            // SAFETY: alloc_proc made it so; the table is thrown away below.
            drop(unsafe { Box::from_raw(data.trapframe as *mut RawPage) });
        }
    }
    // SAFETY: no context runs. These are the kernel's own first values and its own set-up.
    unsafe {
        PROC_MANAGER = ProcManager::new();
        CPU_MANAGER = CPUManager::new();
        window::table().init();
    }
}

/// A call that names no hart, made on the harness' stack as if by hart 0.
pub fn outside<T>(call: impl FnOnce(&mut ProcManager) -> T) -> Result<T, String> {
    machine().hart = 0;
    machine().steps = 0;
    let end = catch_unwind(AssertUnwindSafe(|| call(window::table())));
    end.map_err(|payload| {
        let words = message(payload.as_ref());
        machine().dead = Some(words.clone());
        words
    })
}

pub fn spawn(name: &[u8], entry: u64) -> Result<Result<usize, &'static str>, String> {
    let entry = entries::function_for(entry);
    outside(|table| table.spawn_system_thread(name, entry))
}

/// The slot that a hart runs, by the kernel's own record.
pub fn runs(hart: usize) -> Option<usize> {
    machine().hart = hart;
    // SAFETY: one thread; the field is read and no reference kept.
    let running = unsafe { window::harts().mycpu().process };
    running.and_then(|process| window::slot_of(process.as_ptr() as *const Process))
}

/// The slot that a hart runs, by the kernel's own `myproc`, which panics where there is none.
pub fn caller(hart: usize) -> Result<usize, String> {
    machine().hart = hart;
    let end = catch_unwind(|| {
        // SAFETY: one thread; no reference is kept.
        let process = unsafe { window::harts().myproc() };
        process.and_then(|process| window::slot_of(process))
    });
    match end {
        Ok(slot) => slot.ok_or_else(|| "the hart runs no slot".to_string()),
        Err(payload) => {
            let state = machine();
            state.interrupts[hart % NCPU] = true;
            state.hart = 0;
            Err(message(payload.as_ref()))
        }
    }
}

/// One turn of the hart's scheduler. On a hart that runs a slot the scheduler stands inside
/// `switch`, and there is nothing that could be called.
pub fn dispatch(hart: usize) -> Result<Option<usize>, String> {
    if hart >= NCPU {
        caller(hart)?;
    }
    if runs(hart).is_some() {
        return Err("not callable: the scheduler stands inside switch".to_string());
    }
    machine().hart = hart;
    if machine().paused[NPROC + hart] == 0 {
        contexts::go_on(Place::Scheduler(hart));
    }
    contexts::go_on(Place::Scheduler(hart));
    match machine().dead.clone() {
        Some(words) => Err(words),
        None => Ok(runs(hart)),
    }
}

/// How a call meets what its slot was doing.
#[derive(Clone, Copy, PartialEq, Debug)]
pub enum Meets {
    UserMode,
    /// The slot was between two looks of this very call, and looks again.
    SameCall,
    /// It was between two looks of another call, which it gives up.
    OtherCall,
}

pub fn meets(slot: usize, request: Request) -> Meets {
    let state = machine();
    if !state.between_looks[slot] {
        Meets::UserMode
    } else if state.asked[slot] == request {
        Meets::SameCall
    } else {
        Meets::OtherCall
    }
}

/// A call by the slot that the hart runs. There must be one.
pub fn call(hart: usize, request: Request) -> End {
    let Some(slot) = runs(hart) else {
        return End::Died("the hart runs nothing".to_string());
    };
    let state = machine();
    state.give_up = meets(slot, request) == Meets::OtherCall;
    state.asked[slot] = request;
    state.reply = None;
    state.hart = hart;
    contexts::go_on(Place::Slot(slot));
    let state = machine();
    match (state.dead.clone(), state.reply.take()) {
        (Some(words), _) => End::Died(words),
        (None, Some(reply)) => End::Returned(reply),
        (None, None) => End::Left,
    }
}

/// What holds of every table between two calls: no hart holds a lock, so no lock can be spun on.
pub fn at_rest() -> bool {
    (0..NCPU).all(|hart| locks_held(hart) == 0)
}

/// After a panic that left no lock held and nothing changed.
pub fn revive() {
    machine().dead = None;
}

/// The host's answers for the next call.
pub fn host_says(mapped: [bool; 4], memory: bool) {
    host::prepare(mapped, memory);
}
