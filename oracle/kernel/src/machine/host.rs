//! The host's answers: what document 01 lets the host decide, given before each call.

use core::cell::UnsafeCell;

pub const NOT_WANTED: usize = 0;
pub const WRITABLE: usize = 4096;
pub const UNWRITABLE: usize = 8192;

struct Answers {
    mapped: [bool; 4],
    translated: usize,
    memory: bool,
    stored: Option<u64>,
    store_refused: bool,
}

struct Shared(UnsafeCell<Answers>);

// SAFETY: one OS thread runs everything; `calls::fresh` sees to it.
unsafe impl Sync for Shared {}

static ANSWERS: Shared = Shared(UnsafeCell::new(Answers {
    mapped: [true; 4],
    translated: 0,
    memory: true,
    stored: None,
    store_refused: false,
}));

fn answers() -> &'static mut Answers {
    // SAFETY: see above; no reference is kept.
    unsafe { &mut *ANSWERS.0.get() }
}

/// The answers for the next call.
pub fn prepare(mapped: [bool; 4], memory: bool) {
    *answers() = Answers {
        mapped,
        translated: 0,
        memory,
        stored: None,
        store_refused: false,
    };
}

/// Thread creation asks for entry, return address, stack and stack top - 1, in this order.
pub fn mapped() -> bool {
    let answers = answers();
    let answer = answers.mapped[answers.translated % 4];
    answers.translated += 1;
    answer
}

pub fn memory_had() -> bool {
    answers().memory
}

/// Takes a status of four or eight bytes, if the address is the writable one.
pub fn store(address: usize, bytes: &[u8]) -> Result<(), &'static str> {
    if address != WRITABLE {
        answers().store_refused = true;
        return Err("not writable");
    }
    let mut number = [0; 8];
    number[..bytes.len()].copy_from_slice(bytes);
    answers().stored = Some(u64::from_le_bytes(number));
    Ok(())
}

/// The status that the last call wrote, as unsigned bytes.
pub fn stored() -> Option<u64> {
    answers().stored
}

/// The last call tried to write a status and could not.
pub fn store_refused() -> bool {
    answers().store_refused
}
