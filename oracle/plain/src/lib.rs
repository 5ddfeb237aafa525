//! Document 01 as a plain Rust program: an array of structs, a `VecDeque`, no heap in a call.
//! It is written from document 01 alone and knows nothing of the carried kernel.

mod births;
mod ends;
mod listing;
mod sched;
mod table;
mod waits;

pub use births::Ask;
pub use table::{Table, HARTS, SLOTS};
