//! Stub: the registers that the carried files read.

pub mod satp;
pub mod sstatus;
pub mod tp;
