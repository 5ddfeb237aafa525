//! Reading the carried table. Four fields of ProcManager are private and have no reader; `Window`
//! repeats its declaration and is laid over it. `check` shows that the two lie alike.

use crate::arch::riscv::qemu::param::NPROC;
use crate::lock::spinlock::Spinlock;
use crate::process::{CPUManager, Context, ProcManager, Process, SystemThreadEntry};
use crate::process::{CPU_MANAGER, PROC_MANAGER};
use alloc::collections::VecDeque;
use alloc::vec::Vec;

struct Window {
    proc: [Process; NPROC],
    run_queue: Spinlock<VecDeque<usize>>,
    init_proc: *mut Process,
    pid_lock: Spinlock<usize>,
    #[allow(dead_code)]
    wait_lock: Spinlock<()>,
}

const _: () = assert!(size_of::<Window>() == size_of::<ProcManager>());
const _: () = assert!(align_of::<Window>() == align_of::<ProcManager>());

/// The carried table.
pub fn table() -> &'static mut ProcManager {
    let table = &raw mut PROC_MANAGER;
    // SAFETY: one OS thread; callers keep the reference for one call only.
    unsafe { &mut *table }
}

/// The carried harts.
pub fn harts() -> &'static mut CPUManager {
    let harts = &raw mut CPU_MANAGER;
    // SAFETY: as above.
    unsafe { &mut *harts }
}

fn window() -> &'static Window {
    // SAFETY: same declaration, same size; `check` has compared the fields.
    unsafe { &*(&raw const PROC_MANAGER).cast::<Window>() }
}

pub fn process(slot: usize) -> &'static mut Process {
    &mut table().get_table_mut()[slot]
}

pub fn context(slot: usize) -> &'static mut Context {
    &mut process(slot).data.get_mut().context
}

pub fn entry(slot: usize) -> Option<SystemThreadEntry> {
    process(slot).data.get_mut().system_thread_entry
}

/// The slot whose record holds that address.
fn slot_holding(address: usize) -> Option<usize> {
    let base = &raw const window().proc as usize;
    let offset = address.checked_sub(base)?;
    let slot = offset / size_of::<Process>();
    (slot < NPROC).then_some(slot)
}

pub fn slot_of(process: *const Process) -> Option<usize> {
    slot_holding(process as usize)
}

/// The slot whose own channel that is.
pub fn slot_of_channel(channel: usize) -> Option<usize> {
    let slot = slot_holding(channel)?;
    (own_channel(slot) == channel).then_some(slot)
}

/// The kernel's channel of a slot is the address of its record.
pub fn own_channel(slot: usize) -> usize {
    &raw const window().proc[slot] as usize
}

pub fn slot_of_context(context: *const Context) -> Option<usize> {
    slot_holding(context as usize)
}

pub fn pids() -> usize {
    *window().pid_lock.acquire()
}

pub fn init_slot() -> Option<usize> {
    slot_of(window().init_proc)
}

pub fn queue() -> Vec<usize> {
    window().run_queue.acquire().iter().copied().collect()
}

/// Writes the pid counter, which no list of calls could bring near its top.
pub fn set_pids(pids: usize) {
    *window().pid_lock.acquire() = pids;
}

/// On a fresh table: each field that the window shows moves when the kernel moves it.
pub fn check() {
    assert_eq!((pids(), init_slot(), queue()), (0, None, Vec::new()));
    assert_eq!(table().alloc_pid(), 1);
    assert_eq!((pids(), init_slot(), queue()), (1, None, Vec::new()));
    // SAFETY: a fresh table, as at the kernel's own boot.
    unsafe { table().user_init() };
    assert_eq!((pids(), init_slot(), queue()), (2, Some(0), Vec::new()));
    unsafe { table().start_init_process() };
    assert_eq!((pids(), init_slot(), queue()), (2, Some(0), [0].to_vec()));
    for slot in 0..NPROC {
        assert_eq!(own_channel(slot), process(slot).as_ptr_addr());
    }
}
