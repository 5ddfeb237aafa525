//! The host's side of the carried kernel: stacks, harts, the host's answers, and the calls.
//!
//! One OS thread runs everything. Between two calls every context stands still at one of three
//! places, none of which holds a lock: a scheduler at the top of its loop, a slot in user mode, or a
//! slot between coming back from `sleep` and its next look (see `hooks`).

pub mod calls;
pub mod console;
pub mod contexts;
pub mod entries;
pub mod hooks;
pub mod host;
mod stacks;
mod state;
pub mod window;
