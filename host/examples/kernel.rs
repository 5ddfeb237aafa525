//! A toy kernel around the table: a `static` behind a lock, a loop for each hart, system calls that
//! sleep and ask again, data beside each slot. docs/INTEGRATING.md quotes it.
//!
//! A hart is a thread of this program, and a slot's kernel stack is another. `SWITCH` stands for the
//! switch between them: whoever waits there has left its stack, and given the lock back.

use anwalghid::*;
use std::sync::atomic::{AtomicUsize, Ordering::SeqCst};
use std::sync::{Arc, Condvar, Mutex, MutexGuard};
use std::{thread, time::Duration};

const HARTS: usize = 3;

static KERNEL: Mutex<Kernel> = Mutex::new(Kernel::new());
static SWITCH: Condvar = Condvar::new();

struct Kernel {
    table: Table,
    /// Beside each slot, what the table doesn't keep.
    procs: [Option<Proc>; Table::SLOTS],
    /// Whose stack each hart stands on; none: its scheduler's.
    on: [Option<Slot>; HARTS],
    off: bool,
}

struct Proc {
    pid: Pid,
    /// Of a group; its threads share it. A system thread has none.
    space: Option<Arc<Space>>,
}

type Held = MutexGuard<'static, Kernel>;
type Program = fn(&Caller) -> u64;

/// A spinlock in a kernel; while it is held its hart takes no interrupt.
fn lock() -> Held {
    KERNEL.lock().unwrap()
}

// ---- an address space: here only counted

static SPACES: AtomicUsize = AtomicUsize::new(0);

struct Space;

impl Space {
    fn new() -> Option<Arc<Space>> {
        SPACES.fetch_add(1, SeqCst);
        Some(Arc::new(Space))
    }
}

impl Drop for Space {
    fn drop(&mut self) {
        SPACES.fetch_sub(1, SeqCst);
    }
}

// ---- beside each slot

impl Kernel {
    const fn new() -> Kernel {
        Kernel {
            table: Table::new(),
            procs: [const { None }; Table::SLOTS],
            on: [None; HARTS],
            off: false,
        }
    }

    /// The hart that the slot runs on. After a switch it may be another.
    fn hart_of(&self, slot: Slot) -> Hart {
        Hart(self.on.iter().position(|&on| on == Some(slot)).unwrap())
    }

    fn marked(&self, slot: Slot) -> bool {
        self.table.slot(slot).unwrap().killed
    }

    fn space_of(&self, slot: Slot) -> Option<Arc<Space>> {
        self.procs[slot.0].as_ref().unwrap().space.clone()
    }

    /// After a call that answered a pid, before the lock is given back: then it may be dispatched.
    fn set_up(
        &mut self,
        pid: Pid,
        space: Option<Arc<Space>>,
        body: fn(&Caller, Program),
        program: Program,
    ) {
        let made = self.table.slots().find(|(_, view)| view.pid == pid);
        let (slot, _) = made.unwrap();
        let stale = self.procs[slot.0].replace(Proc { pid, space });
        assert!(stale.is_none());
        thread::spawn(move || {
            let caller = Caller { slot };
            drop(caller.wait_for_hart(lock()));
            body(&caller, program)
        });
    }

    /// After a call that may have freed slots, before the lock is given back.
    fn tear_down(&mut self) {
        for (slot, view) in self.table.slots() {
            let proc = &mut self.procs[slot.0];
            if proc.as_ref().is_some_and(|proc| proc.pid != view.pid) {
                *proc = None;
            }
        }
    }
}

// ---- the switch

fn scheduler(hart: Hart) {
    let mut kernel = lock();
    while !kernel.off {
        match kernel.table.dequeue_runnable(hart) {
            Ok(slot) => {
                kernel.on[hart.0] = Some(slot);
                SWITCH.notify_all();
                let away = |kernel: &mut Kernel| kernel.on[hart.0].is_some();
                kernel = SWITCH.wait_while(kernel, away).unwrap();
            }
            Err(Refusal::QueueEmpty) => kernel = wait_for_interrupt(kernel),
            Err(why) => unreachable!("{why}"),
        }
    }
}

fn wait_for_interrupt(kernel: Held) -> Held {
    let slept = SWITCH.wait_timeout(kernel, Duration::from_millis(1));
    slept.unwrap().0
}

/// A slot, as its own kernel stack knows it.
struct Caller {
    slot: Slot,
}

impl Caller {
    fn wait_for_hart(&self, kernel: Held) -> Held {
        let off = |kernel: &mut Kernel| !kernel.on.contains(&Some(self.slot));
        SWITCH.wait_while(kernel, off).unwrap()
    }

    /// The hart's scheduler goes on, and this stack is left for good.
    fn leave(&self, mut kernel: Held) {
        let hart = kernel.hart_of(self.slot);
        kernel.on[hart.0] = None;
        SWITCH.notify_all();
    }

    /// The caller stopped running. The lock is given back only where this stack is left; whoever is
    /// back has it again.
    fn sched(&self, mut kernel: Held) -> Held {
        let hart = kernel.hart_of(self.slot);
        kernel.on[hart.0] = None;
        SWITCH.notify_all();
        self.wait_for_hart(kernel)
    }
}

// ---- system calls

impl Caller {
    fn fork(&self, program: Program) -> Result<Pid, Refusal> {
        let space = Space::new(); // first: the call publishes the child
        let mut kernel = lock();
        let hart = kernel.hart_of(self.slot);
        let pid = kernel.table.fork(hart, space.is_some())?;
        kernel.set_up(pid, space, user, program);
        Ok(pid)
    }

    fn thread(&self, program: Program) -> Result<Pid, Refusal> {
        let mut kernel = lock();
        let (hart, space) = (kernel.hart_of(self.slot), kernel.space_of(self.slot));
        let ask = ThreadAsk::default();
        let pid = kernel.table.create_user_thread(hart, ask, Mapped::ALL)?;
        kernel.set_up(pid, space, user, program);
        Ok(pid)
    }

    /// Blocked remembers nothing: whoever is back asks again.
    fn wait(&self) -> Result<(Pid, u64), Refusal> {
        let mut kernel = lock();
        loop {
            let hart = kernel.hart_of(self.slot);
            match kernel.table.wait(hart, Wish::Writable)? {
                Waited::Blocked => kernel = self.sched(kernel),
                Waited::Reaped { pid, status } => {
                    kernel.tear_down();
                    return Ok((pid, status));
                }
            }
        }
    }

    /// The table's join doesn't look at the mark. This loop does, each time before it asks.
    fn join(&self, pid: Pid) -> Result<Option<i32>, Refusal> {
        let mut kernel = lock();
        while !kernel.marked(self.slot) {
            let hart = kernel.hart_of(self.slot);
            match kernel.table.join_user_thread(hart, pid, Wish::Writable)? {
                Joined::Blocked => kernel = self.sched(kernel),
                Joined::Status(status) => {
                    kernel.tear_down();
                    return Ok(Some(status));
                }
            }
        }
        Ok(None)
    }

    /// Of a process and of a thread: by a process, thread exit is the same as exit.
    fn exit(&self, status: u64) -> Result<(), Refusal> {
        let mut kernel = lock();
        loop {
            let hart = kernel.hart_of(self.slot);
            let exited = kernel.table.thread_exit(hart, status)?;
            kernel.tear_down(); // of its threads that were reaped
            match exited {
                Exited::Blocked => kernel = self.sched(kernel),
                Exited::Gone => {
                    self.leave(kernel);
                    return Ok(());
                }
            }
        }
    }

    fn kill(&self, pid: Pid) -> Result<(), Refusal> {
        lock().table.kill(pid)
    }

    /// The timer's interrupt, on a hart that runs a slot.
    fn yielding(&self) -> Result<(), Refusal> {
        let mut kernel = lock();
        let hart = kernel.hart_of(self.slot);
        kernel.table.yielding(hart)?;
        drop(self.sched(kernel));
        Ok(())
    }

    fn system_return(&self) -> Result<(), Refusal> {
        let mut kernel = lock();
        let hart = kernel.hart_of(self.slot);
        kernel.table.free_system_thread(hart)?;
        kernel.tear_down(); // of the caller itself, whose stack goes once it is left
        self.leave(kernel);
        Ok(())
    }
}

// ---- devices, each with a lock of its own

/// Its address is a number from FIRST_DEVICE on: nothing of a kernel lies below.
fn channel_of<T>(device: &T) -> Channel {
    let channel = Channel(device as *const T as u64);
    assert!(channel.is_device());
    channel
}

type Device = Mutex<u32>;

static CARDS: Device = Mutex::new(0);
static SCALE: Device = Mutex::new(0);

fn interrupt(device: &Device) {
    *device.lock().unwrap() += 1;
    lock().table.wake_up(channel_of(device)).unwrap();
}

impl Caller {
    /// The device's lock is given back once the table's is held, so that no wake comes in between.
    /// Answers false if the caller is marked: then it doesn't sleep.
    fn sleep<T>(&self, channel: Channel, device: MutexGuard<'_, T>) -> Result<bool, Refusal> {
        let mut kernel = lock();
        drop(device);
        if kernel.marked(self.slot) {
            return Ok(false);
        }
        let hart = kernel.hart_of(self.slot);
        kernel.table.sleep(hart, channel)?;
        drop(self.sched(kernel));
        Ok(true)
    }

    /// Whoever was woken looks again: another may have been first, or it was kill.
    fn read(&self, device: &Device) -> Result<bool, Refusal> {
        loop {
            let mut ready = device.lock().unwrap();
            if *ready > 0 {
                *ready -= 1;
                return Ok(true);
            }
            if !self.sleep(channel_of(device), ready)? {
                return Ok(false);
            }
        }
    }
}

// ---- programs

/// What it returns is its status.
fn user(caller: &Caller, program: Program) {
    let status = program(caller);
    caller
        .exit(status)
        .expect("neither init nor a system thread");
}

fn system(caller: &Caller, program: Program) {
    program(caller);
    caller.system_return().expect("a system thread");
}

fn flusher(caller: &Caller) -> u64 {
    for _ in 0..5 {
        caller.yielding().unwrap();
    }
    0
}

fn payment(caller: &Caller) -> u64 {
    if caller.read(&CARDS).unwrap() {
        21
    } else {
        0
    }
}

fn checkout(caller: &Caller) -> u64 {
    let payments = [
        caller.thread(payment).unwrap(),
        caller.thread(payment).unwrap(),
    ];
    let joined = payments.map(|pid| caller.join(pid).unwrap().unwrap());
    joined.iter().sum::<i32>() as u64
}

fn weighs_for_ever(caller: &Caller) -> u64 {
    assert!(!caller.read(&SCALE).unwrap());
    9
}

/// Whichever of the two has the lower slot is marked first.
fn joins_for_ever(caller: &Caller) -> u64 {
    let scale = caller.thread(weighs_for_ever).unwrap();
    let joined = caller.join(scale).unwrap();
    assert!(joined.is_none() || joined == Some(9));
    0
}

/// The lane of dead_lane.rs, whose threads look at their mark: it ends.
fn closing_lane(caller: &Caller) -> u64 {
    caller.thread(joins_for_ever).unwrap();
    for _ in 0..20 {
        caller.yielding().unwrap();
    }
    3
}

/// Init is never done; here the machine is turned off.
fn init(caller: &Caller, _: Program) {
    let lost = caller.fork(weighs_for_ever).unwrap();
    for program in [checkout, checkout, closing_lane] {
        caller.fork(program).unwrap();
    }
    caller.kill(lost).unwrap();
    let ended: [_; 4] = std::array::from_fn(|_| caller.wait().unwrap());
    assert_eq!(
        ended.iter().map(|(_, status)| status).sum::<u64>(),
        9 + 42 + 42 + 3
    );
    assert_eq!(caller.wait(), Err(Refusal::NoneSuch));
    while lock().table.slots().any(|(_, view)| view.system) {
        caller.yielding().unwrap();
    }
    let mut kernel = lock();
    kernel.off = true;
    caller.leave(kernel);
}

fn boot() -> Result<(), Refusal> {
    let mut kernel = lock();
    let pid = kernel.table.user_init()?;
    kernel.set_up(pid, Space::new(), init, |_| 0);
    kernel.table.start_init_process()?;
    let pid = kernel.table.spawn_system_thread(b"flusher", 0)?;
    kernel.set_up(pid, None, system, flusher);
    Ok(())
}

fn main() -> Result<(), Refusal> {
    std::panic::set_hook(Box::new(|why| {
        eprintln!("{why}");
        std::process::exit(1)
    }));
    boot()?;
    let harts = [0, 1, 2].map(|hart| thread::spawn(move || scheduler(Hart(hart))));
    while harts.iter().any(|hart| !hart.is_finished()) {
        interrupt(&CARDS);
        thread::sleep(Duration::from_millis(1));
    }
    harts.into_iter().for_each(|hart| hart.join().unwrap());
    let kernel = lock();
    let set_up = kernel.procs.iter().flatten().count();
    assert_eq!((set_up, SPACES.load(SeqCst)), (1, 1), "init's");
    println!("kernel.rs: three harts, and nothing but init's is left beside the slots");
    Ok(())
}

#[test]
fn the_machine_turns_itself_off() -> Result<(), Refusal> {
    main()
}
