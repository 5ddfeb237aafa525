//! The table, and a method for each call.

use crate::raw::Words;
use crate::{
    Channel, Exited, Hart, Joined, Mapped, Pid, Refusal, Slot, SlotView, ThreadAsk, Waited, Wish,
};
use core::fmt;

/// The process table: 64 slots, 8 harts, and the queue of slots that are ready to run.
///
/// It owns its words and shows them to nobody, so only the proved functions change them. Each of
/// these requires one thing: that the table is in order, as [`new`](Table::new) makes it and every
/// call, granted or refused, leaves it. So every `requires` holds, whatever safe code does with a
/// `Table`. A clone is the table that the same calls would have built.
///
/// A method that takes a hart is a call of the slot which that hart runs. Where the caller stops
/// running (it yields, sleeps, blocks or ends) its hart is idle afterwards. Each call is one step:
/// threads that share a table take turns, by a lock around it.
#[derive(Clone)]
pub struct Table(Words);

impl Table {
    /// How many slots there are.
    pub const SLOTS: usize = 64;

    /// How many harts there are.
    pub const HARTS: usize = 8;

    /// A buffer of so many bytes always suffices for [`proc_dump`](Table::proc_dump).
    pub const LISTING_ROOM: usize = Self::SLOTS * 66;

    /// [`show`](Table::show) asks for a buffer of so many bytes, which suffices for any table
    /// (`TOP` in crates/shows).
    pub const SHOW_ROOM: usize = 66 + 21 * Self::SLOTS + 21 * Self::HARTS + 418 * Self::SLOTS;

    /// A fresh table. It may be a `static`, behind a lock:
    ///
    /// ```
    /// # use anwalghid::Table;
    /// # use std::sync::Mutex;
    /// static TABLE: Mutex<Table> = Mutex::new(Table::new());
    /// # TABLE.lock().unwrap().user_init().unwrap();
    /// ```
    #[inline]
    pub const fn new() -> Self {
        Table(Words::fresh())
    }

    /// A fresh table in place of this one, written by the archive.
    #[inline]
    pub fn renew(&mut self) {
        self.0.renew()
    }

    /// Boot: the lowest UNUSED slot becomes init. Answers its pid. Refused: 12, 6, 5.
    #[inline]
    pub fn user_init(&mut self) -> Result<Pid, Refusal> {
        self.0.user_init().made()
    }

    /// Start: init is published, once. Refused: 12.
    #[inline]
    pub fn start_init_process(&mut self) -> Result<(), Refusal> {
        self.0.start_init_process().done()
    }

    /// A system thread is made and published. Answers its pid. Refused: 15, 6, 5.
    #[inline]
    pub fn spawn_system_thread(&mut self, name: &[u8], entry: u64) -> Result<Pid, Refusal> {
        self.0.spawn_system_thread(name, entry).made()
    }

    /// The calling system thread returns, and its slot is free. Refused: 1, 2, 13.
    #[inline]
    pub fn free_system_thread(&mut self, hart: Hart) -> Result<(), Refusal> {
        self.0.free_system_thread(hart.0).done()
    }

    /// A child is made and published; `memory` says whether there was memory for it. Answers its
    /// pid. Refused: 1, 2, 7, 6, 5, 18.
    #[inline]
    pub fn fork(&mut self, hart: Hart, memory: bool) -> Result<Pid, Refusal> {
        self.0.fork(hart.0, memory.into()).made()
    }

    /// A thread of the caller's process is made and published. Answers its pid.
    /// Refused: 1, 2, 7, 8, 9, 6, 5.
    #[inline]
    pub fn create_user_thread(
        &mut self,
        hart: Hart,
        ask: ThreadAsk,
        mapped: Mapped,
    ) -> Result<Pid, Refusal> {
        let ThreadAsk {
            entry,
            arg,
            stack,
            ret,
        } = ask;
        self.0
            .create_user_thread(hart.0, entry, arg, stack, ret, mapped.bits())
            .made()
    }

    /// Dispatch: the head of the queue runs on that hart. Answers its slot. Refused: 1, 3, 4.
    #[inline]
    pub fn dequeue_runnable(&mut self, hart: Hart) -> Result<Slot, Refusal> {
        self.0.dequeue_runnable(hart.0).handed()
    }

    /// The caller goes to the tail of the queue. Refused: 1, 2.
    #[inline]
    pub fn yielding(&mut self, hart: Hart) -> Result<(), Refusal> {
        self.0.yielding(hart.0).done()
    }

    /// The caller sleeps on a device's channel. Refused: 1, 2, 14.
    #[inline]
    pub fn sleep(&mut self, hart: Hart, channel: Channel) -> Result<(), Refusal> {
        self.0.sleep(hart.0, channel.0).done()
    }

    /// Whoever sleeps on that device's channel is published, by rising slot. Refused: 14.
    #[inline]
    pub fn wake_up(&mut self, channel: Channel) -> Result<(), Refusal> {
        self.0.wake_up(channel.0).done()
    }

    /// The slot with that pid is marked, and published if it sleeps. Refused: 10.
    #[inline]
    pub fn kill(&mut self, pid: Pid) -> Result<(), Refusal> {
        self.0.kill(pid.0).done()
    }

    /// The lowest ZOMBIE child is reaped; with none the caller sleeps. Refused: 1, 2, 10, 11.
    #[inline]
    pub fn wait(&mut self, hart: Hart, wish: Wish) -> Result<Waited, Refusal> {
        self.0.wait(hart.0, wish as u64).waited()
    }

    /// That thread of the caller's process is reaped; while it lives the caller sleeps.
    /// Refused: 1, 2, 7, 10, 11.
    #[inline]
    pub fn join_user_thread(
        &mut self,
        hart: Hart,
        pid: Pid,
        wish: Wish,
    ) -> Result<Joined, Refusal> {
        self.0.join_user_thread(hart.0, pid.0, wish as u64).joined()
    }

    /// The calling thread ends; by another it is the same as exit. Refused: 1, 2, 13.
    #[inline]
    pub fn thread_exit(&mut self, hart: Hart, status: u64) -> Result<Exited, Refusal> {
        self.0.thread_exit(hart.0, status).exited()
    }

    /// The calling process ends, once no thread of it is alive: the lowest live one is marked, and
    /// the caller sleeps on it. Refused: 1, 2, 13.
    #[inline]
    pub fn exit(&mut self, hart: Hart, status: u64) -> Result<Exited, Refusal> {
        self.0.exit(hart.0, status).exited()
    }

    /// The size of the caller's group changes by `count`; `memory` says whether there were pages,
    /// and counts only upward. Refused: 1, 2, 7, 17, 18.
    #[inline]
    pub fn grow_proc(&mut self, hart: Hart, count: i64, memory: bool) -> Result<(), Refusal> {
        self.0.grow_proc(hart.0, count, memory.into()).done()
    }

    /// The listing, a line for each slot that isn't UNUSED: the front part of the buffer. The rest
    /// is untouched, and all of it if refused. Refused: 16.
    #[inline]
    pub fn proc_dump<'a>(&self, buffer: &'a mut [u8]) -> Result<&'a [u8], Refusal> {
        self.0.proc_dump(buffer).written(buffer)
    }

    /// The whole table as lane's `show` writes it: the front part of the buffer. Refused: 16, with
    /// less room than [`SHOW_ROOM`](Table::SHOW_ROOM), whatever the text.
    #[inline]
    pub fn show<'a>(&self, buffer: &'a mut [u8]) -> Result<&'a [u8], Refusal> {
        self.0.show(buffer).written(buffer)
    }

    /// What that slot holds; none if the table has no such slot.
    #[inline]
    pub fn slot(&self, slot: Slot) -> Option<SlotView> {
        self.0.slot(slot.0).map(SlotView::of)
    }

    /// What each slot holds, by rising slot.
    pub fn slots(&self) -> impl Iterator<Item = (Slot, SlotView)> + '_ {
        (0..Self::SLOTS)
            .map(Slot)
            .filter_map(|slot| Some((slot, self.slot(slot)?)))
    }
}

impl Default for Table {
    fn default() -> Self {
        Self::new()
    }
}

impl fmt::Debug for Table {
    /// The slots that aren't UNUSED.
    fn fmt(&self, to: &mut fmt::Formatter<'_>) -> fmt::Result {
        let used = self
            .slots()
            .filter(|(_, view)| view.state != crate::State::Unused);
        to.debug_map().entries(used).finish()
    }
}
