//! Stub of the crate bit_field: address.rs names its trait and uses nothing of it.
#![no_std]

pub trait BitField {}
