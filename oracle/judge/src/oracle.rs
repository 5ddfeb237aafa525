//! The carried kernel as a table that answers calls.

use crate::added::{self, hart_of};
use crate::counts::{Counts, Listed};
use crate::listed::{self, LongNames};
use crate::listing;
use crate::look::{look, unclean, Groups};
use kernel::machine::calls::{self, End, Meets, Reply, Request};
use kernel::machine::{host, window};
use text::{Answer, Call, Lane, Refusal, View, Wish};

/// Whose word counts where the Rust and document 01 are known to differ.
#[derive(Clone, Copy, PartialEq, Eq, Debug)]
pub enum Word {
    /// The Rust's own values; added refusals are document 01's.
    Rust,
    /// Document 01's values, for a comparison.
    Document,
    /// The Rust is called where document 01 refuses, too, and may break.
    Unguarded,
}

pub struct Oracle {
    word: Word,
    view: View,
    groups: Groups,
    names: LongNames,
    broken: Option<String>,
    /// Where a fresh table's pid counter starts; no list of calls could bring it near its top.
    first_pids: usize,
    pub counts: Counts,
}

fn address(wish: Wish) -> usize {
    match wish {
        Wish::NotWanted => host::NOT_WANTED,
        Wish::Writable => host::WRITABLE,
        Wish::Unwritable => host::UNWRITABLE,
    }
}

/// The call that a slot's program makes.
fn request(call: &Call) -> Option<Request> {
    Some(match *call {
        Call::Fork { .. } => Request::Fork,
        Call::Thread {
            entry,
            arg,
            stack,
            ret,
            ..
        } => Request::Thread {
            entry: entry as usize,
            arg: arg as usize,
            stack: stack as usize,
            ret: ret as usize,
        },
        Call::Yield(_) => Request::Yield,
        Call::Sleep { channel, .. } => Request::Sleep(channel as usize),
        Call::Wait { wish, .. } => Request::Wait(address(wish)),
        Call::Join { pid, wish, .. } => Request::Join(pid as usize, address(wish)),
        Call::Exit { status, .. } => Request::Exit(status as usize),
        Call::ThreadExit { status, .. } => Request::ThreadExit(status as usize),
        Call::SystemReturn(_) => Request::Return,
        Call::Grow { count, .. } => Request::Grow(count as isize),
        _ => return None,
    })
}

/// The host's answers that a call carries.
fn tell_host(call: &Call) {
    match *call {
        Call::Fork { memory, .. } | Call::Grow { memory, .. } => {
            calls::host_says([true; 4], memory)
        }
        Call::Thread { mapped, .. } => calls::host_says(mapped, true),
        _ => calls::host_says([true; 4], true),
    }
}

/// create_user_thread's words, as document 01 numbers them.
fn thread_refusal(words: &str) -> Answer {
    match words {
        "thread_clone: no address space" => Answer::Refused(Refusal::NoGroup),
        "thread_clone: stack overflow" | "thread_clone: invalid user address" => {
            Answer::Refused(Refusal::BadAddress)
        }
        "thread_clone: unmapped user address" => Answer::Refused(Refusal::Unmapped),
        "thread_clone: process table full" => Answer::Refused(Refusal::TableFull),
        words => Answer::Broken(format!("unknown words: {words}")),
    }
}

/// The Rust's panics are caught and answered; the harness' own are told.
fn tell_own(panic: &std::panic::PanicHookInfo) {
    let file = panic.location().map_or("", |place| place.file());
    if !file.contains("kernel/src") || file.contains("kernel/src/machine") {
        eprintln!("{panic}");
    }
}

impl Oracle {
    pub fn new(word: Word) -> Self {
        std::panic::set_hook(Box::new(tell_own));
        calls::fresh();
        window::check();
        let mut oracle = Self {
            word,
            view: View::default(),
            groups: Groups::default(),
            names: LongNames::default(),
            broken: None,
            first_pids: 0,
            counts: Counts::default(),
        };
        oracle.restart();
        oracle
    }

    /// The same, with a pid counter that starts elsewhere.
    pub fn from_pids(word: Word, pids: usize) -> Self {
        let mut oracle = Self::new(word);
        oracle.first_pids = pids;
        oracle.restart();
        oracle
    }

    /// A fresh table.
    pub fn restart(&mut self) {
        calls::fresh();
        window::set_pids(self.first_pids);
        self.broken = None;
        self.groups = Groups::default();
        self.names = LongNames::default();
        self.look_again();
    }

    /// The table after the last call.
    pub fn now(&self) -> &View {
        &self.view
    }

    fn ask_rust(&mut self, call: &Call) -> Answer {
        let answer = match self.try_rust(call) {
            Ok(answer) => answer,
            Err(words) => Answer::Broken(words),
        };
        self.counts.answered(call, &answer);
        answer
    }

    fn try_rust(&mut self, call: &Call) -> Result<Answer, String> {
        tell_host(call);
        Ok(match *call {
            Call::Boot => {
                // SAFETY: as the kernel's main does.
                calls::outside(|table| unsafe { table.user_init() })?;
                let slot = window::init_slot().ok_or("boot made no init")?;
                Answer::Pid(window::process(slot).pid() as u64)
            }
            Call::Start => {
                // SAFETY: as above.
                calls::outside(|table| unsafe { table.start_init_process() })?;
                Answer::Done
            }
            Call::Spawn { ref name, entry } => match calls::spawn(name, entry)? {
                Ok(pid) => Answer::Pid(pid as u64),
                Err(_) => Answer::Refused(Refusal::TableFull),
            },
            Call::Wake(channel) => {
                calls::outside(|table| table.wake_up(channel as usize))?;
                Answer::Done
            }
            Call::Kill(pid) => match calls::outside(|table| table.kill(pid as usize))? {
                Ok(_) => Answer::Done,
                Err(()) => Answer::Refused(Refusal::NoneSuch),
            },
            Call::Dispatch(hart) => match calls::dispatch(hart as usize)? {
                Some(slot) => Answer::Slot(slot),
                None => Answer::Refused(Refusal::QueueEmpty),
            },
            ref call => self.by_slot(call)?,
        })
    }

    fn by_slot(&mut self, call: &Call) -> Result<Answer, String> {
        let (Some(request), Some(hart)) = (request(call), hart_of(call)) else {
            return Err("no call of a slot".to_string());
        };
        let hart = hart as usize;
        let slot = calls::caller(hart)?;
        if request == Request::Return && !self.view.slots[slot].system {
            return Err("not callable: only a system thread's entry returns".to_string());
        }
        match calls::meets(slot, request) {
            Meets::UserMode => {}
            Meets::SameCall => self.counts.same_call += 1,
            Meets::OtherCall => self.counts.other_call += 1,
        }
        match calls::call(hart, request) {
            End::Died(words) => Err(words),
            End::Left => Ok(self.left(call, slot)),
            End::Returned(reply) => Ok(self.replied(call, slot, reply)),
        }
    }

    /// The slot left its hart: asleep in a loop of wait, join or exit, or done.
    fn left(&self, call: &Call, slot: usize) -> Answer {
        let asleep = window::process(slot).state() == kernel::process::ProcState::SLEEPING;
        match call {
            Call::Yield(_) | Call::Sleep { .. } | Call::SystemReturn(_) => Answer::Done,
            _ if asleep => Answer::Blocked,
            _ => Answer::Done,
        }
    }

    fn replied(&mut self, call: &Call, slot: usize, reply: Reply) -> Answer {
        match reply {
            Reply::Forked(Some(pid)) | Reply::Threaded(Ok(pid)) => Answer::Pid(pid as u64),
            Reply::Forked(None) => Answer::Refused(Refusal::TableFull),
            Reply::Threaded(Err(words)) => thread_refusal(words),
            Reply::Waited(Some(pid)) => match self.status(call, pid as u64) {
                Ok(status) => Answer::Reaped(pid as u64, status),
                Err(words) => Answer::Broken(words),
            },
            Reply::Joined(Some(pid)) => match self.status(call, pid as u64) {
                Ok(status) => Answer::Joined(status as u32 as i32),
                Err(words) => Answer::Broken(words),
            },
            Reply::Waited(None) | Reply::Joined(None) => Answer::Refused(self.none(call, slot)),
            Reply::Grown(Ok(())) => Answer::Done,
            Reply::Grown(Err(_)) => Answer::Refused(Refusal::NoMemory),
            Reply::Back => Answer::Broken("came back without leaving".to_string()),
        }
    }

    /// Wait and join answer `None` for three reasons; the Rust's state and its try to write tell.
    fn none(&self, call: &Call, slot: usize) -> Refusal {
        let join = matches!(call, Call::Join { .. });
        if host::store_refused() {
            Refusal::StatusUnwritable
        } else if join && self.view.slots[slot].group.is_none() {
            Refusal::NoGroup
        } else {
            Refusal::NoneSuch
        }
    }

    /// The status that the Rust wrote; if it isn't wanted, the one that stood in the slot.
    fn status(&mut self, call: &Call, pid: u64) -> Result<u64, String> {
        let wish = match *call {
            Call::Join { pid: asked, .. } if asked != pid => {
                return Err(format!("join {asked} answers {pid}"));
            }
            Call::Wait { wish, .. } | Call::Join { wish, .. } => wish,
            _ => Wish::NotWanted,
        };
        match (wish, host::stored()) {
            (Wish::Writable, Some(status)) => Ok(status),
            (Wish::NotWanted, None) => {
                self.counts.note(Listed::StatusNotWanted);
                let reaped = self.view.slots.iter().find(|slot| slot.pid == pid);
                reaped
                    .map(|slot| slot.status)
                    .ok_or("nobody was reaped".to_string())
            }
            (_, stored) => Err(format!("status {stored:?} where it is {wish}")),
        }
    }

    fn give_added(&mut self, added: added::Added) -> Answer {
        self.counts.added[added.refusal as usize] += 1;
        if added.spends_pid {
            window::table().alloc_pid();
        }
        Answer::Refused(added.refusal)
    }

    fn check_fork(&mut self, hart: u64, pid: u64) {
        let parent = self.view.harts[hart as usize];
        if !parent.is_some_and(|parent| listed::forked_as_listed(&self.view, parent, pid)) {
            self.broken = Some("a forked child's start record is not as listed".to_string());
        }
    }

    fn look_again(&mut self) {
        look(&mut self.groups, &mut self.view);
        if !calls::at_rest() {
            self.broken = Some("a lock is held between two calls".to_string());
        }
        if let Some(slot) = unclean(&self.view) {
            self.broken = Some(format!("slot {slot} is UNUSED and not as freed"));
        }
    }
}

impl Lane for Oracle {
    fn answer(&mut self, call: &Call) -> Answer {
        self.counts.calls += 1;
        if let Some(words) = &self.broken {
            return Answer::Broken(words.clone());
        }
        let added = added::refusal(call, &self.view).filter(|_| self.word != Word::Unguarded);
        let answer = match added {
            Some(added) => self.give_added(added),
            None => self.ask_rust(call),
        };
        if let Answer::Broken(words) = &answer {
            self.broken = Some(words.clone());
            if calls::at_rest() {
                look(&mut self.groups, &mut self.view);
            }
            return answer;
        }
        self.look_again();
        match (call, &answer) {
            (Call::Spawn { name, .. }, Answer::Pid(pid)) => {
                self.names.remember(&self.view, *pid, name);
            }
            (Call::Fork { hart, .. }, Answer::Pid(pid)) => self.check_fork(*hart, *pid),
            _ => {}
        }
        match &self.broken {
            Some(words) => Answer::Broken(words.clone()),
            None => answer,
        }
    }

    fn list(&mut self, room: Option<u64>, out: &mut Vec<u8>) -> Option<Refusal> {
        self.counts.calls += 1;
        let before = out.len();
        if self.word == Word::Document {
            let mut view = self.view.clone();
            listed::settle(&mut view, &self.names, &mut Counts::default());
            if let Err(words) = listing::settled(&self.view, &view, out, &mut self.counts) {
                Answer::Broken(words).put(out);
            }
        } else {
            match listing::dump() {
                Ok(lines) => lines
                    .iter()
                    .for_each(|l| out.extend(format!("{l}\n").bytes())),
                Err(words) => out.extend(format!("broken {words}\n").bytes()),
            }
        }
        if room.is_some_and(|room| (out.len() - before) as u64 > room) {
            out.truncate(before);
            self.counts.added[Refusal::NoRoom as usize] += 1;
            return Some(Refusal::NoRoom);
        }
        self.counts.answered(&Call::List(room), &Answer::Done);
        None
    }

    fn view(&mut self, view: &mut View) {
        view.clone_from(&self.view);
        if self.word == Word::Document {
            listed::settle(view, &self.names, &mut self.counts);
        }
        self.counts.fields += view.fields();
    }

    fn fresh(&mut self) {
        self.counts.lists += 1;
        self.restart();
    }
}
