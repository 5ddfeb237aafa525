//! Stub: names the parts below.

pub mod qemu;
pub mod register;
pub use register::*;
