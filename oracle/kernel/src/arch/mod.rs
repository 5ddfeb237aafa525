//! Stub: names the parts below.

pub mod riscv;
