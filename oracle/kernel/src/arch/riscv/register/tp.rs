//! Stub of the register that holds the hart's number.

use crate::machine::hooks;

/// # Safety
/// None needed; the kernel declares it so.
pub unsafe fn read() -> usize {
    hooks::hart()
}
