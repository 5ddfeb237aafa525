//! Stub of the interrupt flag, one for each hart. These are the places where the harness may take
//! control: nothing else of the carried code is called so regularly at points without locks.

use crate::machine::hooks;

/// # Safety
/// As in the kernel: the running context must be ready to be interrupted.
pub unsafe fn intr_on() {
    hooks::before_interrupts_on();
    hooks::set_interrupts(true);
}

/// # Safety
/// None needed; the kernel declares it so.
pub unsafe fn intr_off() {
    hooks::set_interrupts(false);
}

/// # Safety
/// As `intr_on`.
pub unsafe fn intr_get() -> bool {
    hooks::before_interrupts_read();
    hooks::interrupts()
}
