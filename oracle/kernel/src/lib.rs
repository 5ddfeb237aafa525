//! The carried kernel files on a host. Which files are carried and which are stubs stands in
//! docs/ORACLE.md; carried.sha256 has the sums of the carried ones.

extern crate alloc;

#[macro_use]
mod printf;

pub mod fs;
pub mod machine;
pub mod trap;

// Carried files are below here: they may warn, and no tool may change them.
#[allow(warnings, clippy::all)]
#[rustfmt::skip]
pub mod arch;
#[allow(warnings, clippy::all)]
#[rustfmt::skip]
pub mod lock;
#[allow(warnings, clippy::all)]
#[rustfmt::skip]
pub mod memory;
#[allow(warnings, clippy::all)]
#[rustfmt::skip]
pub mod misc;
#[allow(warnings, clippy::all)]
#[rustfmt::skip]
pub mod process;
