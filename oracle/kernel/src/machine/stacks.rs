//! A stack for each slot and each scheduler, and the change from one to another.

use crate::arch::riscv::qemu::param::{NCPU, NPROC};
use alloc::boxed::Box;
use alloc::vec;
use alloc::vec::Vec;
use core::cell::UnsafeCell;

const STACK_WORDS: usize = 32 * 1024;
const CANARY: usize = 0x5afe_57ac_c0de_f00d;

struct Shared(UnsafeCell<Vec<Box<[usize]>>>);

// SAFETY: one OS thread runs everything; `calls::fresh` sees to it.
unsafe impl Sync for Shared {}

static STACKS: Shared = Shared(UnsafeCell::new(Vec::new()));

/// What a new context calls first, with its own number.
pub type Begin = extern "C" fn(usize) -> !;

fn stack(number: usize) -> &'static mut [usize] {
    // SAFETY: see above. A stack is written here only before its context begins.
    let stacks = unsafe { &mut *STACKS.0.get() };
    while stacks.len() < NPROC + NCPU {
        let mut words = vec![0; STACK_WORDS].into_boxed_slice();
        words[0] = CANARY;
        stacks.push(words);
    }
    &mut stacks[number]
}

/// No stack has grown past its end.
pub fn intact() -> bool {
    (0..NPROC + NCPU).all(|number| stack(number)[0] == CANARY)
}

/// Lays out a fresh stack; going there calls `begin(argument)`.
pub fn prepare(number: usize, begin: Begin, argument: usize) -> usize {
    let words = stack(number);
    let top = &raw const words[words.len() - 1] as usize;
    let end = words.len() - 1 - top % 16 / 8;
    let frame = end - FRAME_WORDS;
    words[frame..end].fill(0);
    words[frame + BEGIN_WORD] = begin as usize;
    words[frame + ARGUMENT_WORD] = argument;
    words[frame + RETURN_WORD] = anwalghid_begin as *const () as usize;
    &raw const words[frame] as usize
}

extern "C" {
    fn anwalghid_swap(from: *mut usize, to: usize);
    fn anwalghid_begin();
}

/// Leaves the running stack, keeps its pointer in `from`, goes on at `to`.
///
/// # Safety
/// `to` was left by `swap` or made by `prepare`, and is gone to only once.
pub unsafe fn swap(from: *mut usize, to: usize) {
    anwalghid_swap(from, to);
}

// x19 to x30 and d8 to d15 are what a called function must keep.
#[cfg(target_arch = "aarch64")]
const FRAME_WORDS: usize = 20;
#[cfg(target_arch = "aarch64")]
const BEGIN_WORD: usize = 0;
#[cfg(target_arch = "aarch64")]
const ARGUMENT_WORD: usize = 1;
#[cfg(target_arch = "aarch64")]
const RETURN_WORD: usize = 11;

#[cfg(target_arch = "aarch64")]
core::arch::global_asm!(
    ".global anwalghid_swap",
    "anwalghid_swap:",
    "sub sp, sp, #160",
    "stp x19, x20, [sp, #0]",
    "stp x21, x22, [sp, #16]",
    "stp x23, x24, [sp, #32]",
    "stp x25, x26, [sp, #48]",
    "stp x27, x28, [sp, #64]",
    "stp x29, x30, [sp, #80]",
    "stp d8, d9, [sp, #96]",
    "stp d10, d11, [sp, #112]",
    "stp d12, d13, [sp, #128]",
    "stp d14, d15, [sp, #144]",
    "mov x9, sp",
    "str x9, [x0]",
    "mov sp, x1",
    "ldp x19, x20, [sp, #0]",
    "ldp x21, x22, [sp, #16]",
    "ldp x23, x24, [sp, #32]",
    "ldp x25, x26, [sp, #48]",
    "ldp x27, x28, [sp, #64]",
    "ldp x29, x30, [sp, #80]",
    "ldp d8, d9, [sp, #96]",
    "ldp d10, d11, [sp, #112]",
    "ldp d12, d13, [sp, #128]",
    "ldp d14, d15, [sp, #144]",
    "add sp, sp, #160",
    "ret",
    ".global anwalghid_begin",
    "anwalghid_begin:",
    "mov x0, x20",
    "mov x30, xzr",
    "br x19",
);

// rbx, rbp and r12 to r15 are what a called function must keep. The last word stands in for the
// return address of `begin`, so that its stack is aligned as after a call.
#[cfg(target_arch = "x86_64")]
const FRAME_WORDS: usize = 8;
#[cfg(target_arch = "x86_64")]
const BEGIN_WORD: usize = 5;
#[cfg(target_arch = "x86_64")]
const ARGUMENT_WORD: usize = 4;
#[cfg(target_arch = "x86_64")]
const RETURN_WORD: usize = 6;

#[cfg(target_arch = "x86_64")]
core::arch::global_asm!(
    ".global anwalghid_swap",
    "anwalghid_swap:",
    "push rbx",
    "push rbp",
    "push r12",
    "push r13",
    "push r14",
    "push r15",
    "mov [rdi], rsp",
    "mov rsp, rsi",
    "pop r15",
    "pop r14",
    "pop r13",
    "pop r12",
    "pop rbp",
    "pop rbx",
    "ret",
    ".global anwalghid_begin",
    "anwalghid_begin:",
    "mov rdi, rbp",
    "jmp rbx",
);
