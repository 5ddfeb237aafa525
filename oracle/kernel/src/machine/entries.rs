//! Entry points of system threads. The kernel keeps an entry as a function; the calls give it as
//! any 64-bit number. So there is a function for each number in use, and its address is read back.

use super::contexts::system_mode;
use super::window;
use crate::arch::riscv::qemu::param::NPROC;
use crate::process::SystemThreadEntry;
use core::cell::UnsafeCell;

struct Shared(UnsafeCell<[u64; NPROC]>);

// SAFETY: one OS thread runs everything; `calls::fresh` sees to it.
unsafe impl Sync for Shared {}

static NUMBERS: Shared = Shared(UnsafeCell::new([0; NPROC]));

/// The parameter makes each a function of its own; the system thread's body is the same.
fn entry<const K: usize>() {
    std::hint::black_box(K);
    system_mode();
}

macro_rules! entries {
    ($($k:literal)*) => { [$(entry::<$k>),*] };
}

static ENTRIES: [SystemThreadEntry; NPROC] = entries![
    0 1 2 3 4 5 6 7 8 9 10 11 12 13 14 15 16 17 18 19 20 21 22 23 24 25 26 27 28 29 30 31
    32 33 34 35 36 37 38 39 40 41 42 43 44 45 46 47 48 49 50 51 52 53 54 55 56 57 58 59 60 61 62 63
];

fn numbers() -> &'static mut [u64; NPROC] {
    // SAFETY: see above; no reference is kept.
    unsafe { &mut *NUMBERS.0.get() }
}

fn place(function: SystemThreadEntry) -> Option<usize> {
    ENTRIES
        .iter()
        .position(|&e| e as usize == function as usize)
}

/// A function for that number which no system thread of the table has.
pub fn function_for(number: u64) -> SystemThreadEntry {
    let mut taken = [false; NPROC];
    for slot in 0..NPROC {
        if let Some(k) = window::entry(slot).and_then(place) {
            taken[k] = true;
        }
    }
    // All are taken only if the table is full, and then the function is not kept.
    let k = taken.iter().position(|&t| !t).unwrap_or(0);
    if !taken[k] {
        numbers()[k] = number;
    }
    ENTRIES[k]
}

/// The number that a system thread was given.
pub fn number_of(function: SystemThreadEntry) -> Option<u64> {
    place(function).map(|k| numbers()[k])
}
