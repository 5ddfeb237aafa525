//! The carried table's own fields as plain values.

use kernel::machine::{calls, entries, window};
use kernel::process::{ProcData, ProcState, Process};
use std::sync::Arc;
use text::{SlotView, State, View, HARTS, SLOTS};

/// Numbers for the groups. The Rust has none: a group is an `Arc`, and the slots that share it
/// show who belongs together. As document 01 says, a new one takes the lowest number that no slot
/// has.
#[derive(Default)]
pub struct Groups {
    shared: Vec<Option<usize>>,
}

impl Groups {
    /// Forgets what no slot names any more, before anything new is numbered.
    fn settle(&mut self, named: &[Option<usize>]) {
        for shared in &mut self.shared {
            if shared.is_some() && !named.contains(shared) {
                *shared = None;
            }
        }
    }

    fn number(&mut self, shared: usize) -> usize {
        if let Some(known) = self.shared.iter().position(|&s| s == Some(shared)) {
            return known;
        }
        let free = self.shared.iter().position(|s| s.is_none());
        let number = free.unwrap_or(self.shared.len());
        if number == self.shared.len() {
            self.shared.push(None);
        }
        self.shared[number] = Some(shared);
        number
    }
}

fn state_of(state: ProcState) -> State {
    match state {
        ProcState::UNUSED => State::Unused,
        ProcState::ALLOCATED => State::Allocated,
        ProcState::RUNNABLE => State::Runnable,
        ProcState::RUNNING => State::Running,
        ProcState::SLEEPING => State::Sleeping,
        ProcState::ZOMBIE => State::Zombie,
        ProcState::USED => unreachable!("no carried file sets USED"),
    }
}

/// A slot's own channel is the address of its record; a device's is its number.
fn channel_of(channel: usize) -> u64 {
    match window::slot_of_channel(channel) {
        Some(slot) => slot as u64 + 1,
        None => channel as u64,
    }
}

fn shared_by(process: &Process) -> Option<usize> {
    // SAFETY: no context runs while the harness looks.
    let data = unsafe { &*process.data.get() };
    data.address_space.as_ref().map(|a| Arc::as_ptr(a) as usize)
}

fn start_of(data: &ProcData) -> [u64; 4] {
    if let Some(entry) = data.system_thread_entry {
        let number = entries::number_of(entry).expect("an entry that the harness gave");
        return [number, 0, 0, 0];
    }
    if data.trapframe.is_null() {
        return [0; 4];
    }
    // SAFETY: a slot's trapframe is a live page of its own.
    let frame = unsafe { &*data.trapframe };
    [frame.epc, frame.sp, frame.a0, frame.ra].map(|register| register as u64)
}

fn slot_view(process: &Process, group: Option<usize>) -> SlotView {
    // SAFETY: no context runs while the harness looks.
    let data = unsafe { &*process.data.get() };
    let meta = process.meta.acquire();
    SlotView {
        state: state_of(meta.state),
        channel: channel_of(meta.channel),
        killed: meta.killed,
        status: meta.xstate as u64,
        pid: meta.pid as u64,
        queued: meta.queued,
        parent: data.parent.and_then(|parent| window::slot_of(parent)),
        thread: data.user_thread,
        system: data.system_thread_entry.is_some(),
        group,
        size: data
            .address_space
            .as_ref()
            .map_or(0, |a| a.acquire().size as u64),
        trapframe: data.trapframe_va as u64,
        sp: data.context.first_sp() as u64,
        start: start_of(data),
        name: data.name,
    }
}

/// Reads the whole table.
pub fn look(groups: &mut Groups, view: &mut View) {
    let table = window::table().get_table_mut();
    let mut named = [None; SLOTS];
    for (slot, process) in table.iter().enumerate() {
        named[slot] = shared_by(process);
    }
    groups.settle(&named);
    for (slot, process) in table.iter().enumerate() {
        let group = named[slot].map(|shared| groups.number(shared));
        view.slots[slot] = slot_view(process, group);
    }
    view.pids = window::pids() as u64;
    view.init = window::init_slot();
    view.queue = window::queue();
    for hart in 0..HARTS {
        view.harts[hart] = calls::runs(hart);
    }
}

/// The first UNUSED slot that is not as a freed slot has to be.
pub fn unclean(view: &View) -> Option<usize> {
    let clean = SlotView {
        trapframe: kernel::arch::riscv::qemu::layout::TRAPFRAME as u64,
        ..SlotView::default()
    };
    let unused = |slot: &SlotView| slot.state == State::Unused;
    view.slots
        .iter()
        .position(|slot| unused(slot) && *slot != clean)
}
