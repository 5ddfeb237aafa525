//! Stub of the page table register.

/// # Safety
/// None needed; the kernel declares it so.
pub unsafe fn read() -> usize {
    0
}
