//! The process table of an xv6-like kernel, proved, for Rust programs: slots, pids, a run queue,
//! sleep and wake, kill, threads, wait and exit, over 64 slots and 8 harts. No heap, no `std`.
//!
//! ```
//! use anwalghid::{Exited, Hart, Refusal, Table, Waited, Wish};
//!
//! # fn main() -> Result<(), Refusal> {
//! let mut table = Table::new();
//! let hart = Hart(0);
//! table.user_init()?; // init is made ..
//! table.start_init_process()?; // .. and published
//! table.dequeue_runnable(hart)?; // and runs on hart 0
//! let checkout = table.fork(hart, true)?; // it makes a child
//! assert_eq!(table.wait(hart, Wish::Writable)?, Waited::Blocked);
//!
//! table.dequeue_runnable(hart)?; // the child runs ..
//! assert_eq!(table.exit(hart, 7)?, Exited::Gone); // .. and ends
//!
//! table.dequeue_runnable(hart)?; // init was woken, and asks again
//! let reaped = Waited::Reaped { pid: checkout, status: 7 };
//! assert_eq!(table.wait(hart, Wish::Writable)?, reaped);
//! assert_eq!(table.wait(hart, Wish::Writable), Err(Refusal::NoneSuch));
//! # Ok(())
//! # }
//! ```
//!
//! # What is proved
//!
//! The functions behind the methods are compiled from Rattle, and proved there: on any table built
//! by calls, with any arguments, each ends, answers what its definition answers, leaves the table
//! that its definition leaves, and loses nothing if it refuses. The definitions are crates/rules,
//! written from docs/01-scope.md. What follows for every list of calls (a RUNNABLE slot is queued
//! once, first in is first out, no slot on two harts) is in docs/PROMISES.md.
//!
//! Not proved, but tested: this wrapper; its declarations of the C functions (nothing compares them
//! with the archive); and the compiler's back end, LLVM, which makes the archive. host/test.sh runs
//! the tests, and oracle/compare.sh compares host/examples/lane.rs with the Rust, call by call.
//!
//! The build links libanwalghid.a from the folder that the variable ARCHIVE names. host/archive.sh
//! builds it, which takes the Rattle kit, and prints the folder. docs/INTEGRATING.md says how a kernel
//! uses it, and host/examples/kernel.rs does.
//!
//! # Where each function of manager.rs went
//!
//! | manager.rs | here |
//! |---|---|
//! | `new`, `init` | [`Table::new`] |
//! | `get_table_mut` | [`Table::slot`], [`Table::slots`]: the slots may be seen, not changed |
//! | `user_init` | [`Table::user_init`] |
//! | `start_init_process` | [`Table::start_init_process`] |
//! | `spawn_system_thread` | [`Table::spawn_system_thread`] |
//! | `create_user_thread` | [`Table::create_user_thread`] |
//! | `join_user_thread` | [`Table::join_user_thread`] |
//! | `thread_exit` | [`Table::thread_exit`] |
//! | `wake_up` | [`Table::wake_up`] |
//! | `dequeue_runnable` | [`Table::dequeue_runnable`] |
//! | `exit`, `reparent`, `terminate_user_threads` | [`Table::exit`] |
//! | `wait` | [`Table::wait`] |
//! | `kill` | [`Table::kill`] |
//! | `proc_dump` | [`Table::proc_dump`] |
//! | `alloc_pid`, `alloc_proc` | inside the four calls that answer a [`Pid`] |
//! | `publish_runnable`, `make_runnable` | inside the calls that publish a slot |
//! | `kernel_stack` | inside; [`Table::show`] tells the first stack pointer |
//! | `slot_index`, `proc_mapstacks` | left out: slots are numbers, page tables not carried over |
//!
//! And of process.rs: `fork` is [`Table::fork`], `yielding` [`Table::yielding`], `sleep`
//! [`Table::sleep`], `grow_proc` [`Table::grow_proc`], `free_system_thread`
//! [`Table::free_system_thread`]. Function by function, with rule and promise:
//! [docs/SIDE-BY-SIDE.md](../../../../docs/SIDE-BY-SIDE.md).

#![cfg_attr(not(test), no_std)]
#![deny(unsafe_code, unsafe_op_in_unsafe_fn, missing_docs)]

#[cfg(not(target_pointer_width = "64"))]
compile_error!("the archive is for 64-bit machines");

mod answer;
#[allow(unsafe_code)]
mod raw;
mod refusal;
mod table;
mod values;
mod view;

pub use refusal::Refusal;
pub use table::Table;
pub use values::{
    Channel, Exited, Group, Hart, Joined, Mapped, Pid, Slot, ThreadAsk, Waited, Wish,
};
pub use view::{SlotView, State};
