//! Stub of the way back to user mode: the slot stays on its stack and waits for its next call.

use crate::machine::contexts;

/// # Safety
/// Only for a slot's own stack, as in the kernel.
pub unsafe fn user_trap_ret() -> ! {
    contexts::user_mode()
}

/// Only its address is taken.
#[no_mangle]
pub extern "C" fn user_trap() {}

/// Only its address is taken.
#[no_mangle]
pub extern "C" fn trampoline() {}
