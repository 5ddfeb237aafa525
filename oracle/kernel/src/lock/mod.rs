//! Stub: names the carried spinlock. The sleep lock is not needed.

pub mod spinlock;
