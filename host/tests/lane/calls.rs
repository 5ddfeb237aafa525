//! A call of lane's text, made on the linked table.

use anwalghid::{
    Channel, Exited, Hart, Joined, Mapped, Pid, Refusal, Slot, Table, ThreadAsk, Waited,
};
use text::{Answer, Call};

/// The text's own, by rising number.
const REFUSALS: [text::Refusal; 18] = [
    text::Refusal::NoSuchHart,
    text::Refusal::HartIdle,
    text::Refusal::HartBusy,
    text::Refusal::QueueEmpty,
    text::Refusal::TableFull,
    text::Refusal::PidsSpent,
    text::Refusal::NoGroup,
    text::Refusal::BadAddress,
    text::Refusal::Unmapped,
    text::Refusal::NoneSuch,
    text::Refusal::StatusUnwritable,
    text::Refusal::InitOutOfTurn,
    text::Refusal::WrongWayOut,
    text::Refusal::NotADevice,
    text::Refusal::NameTooLong,
    text::Refusal::NoRoom,
    text::Refusal::SizeOutOfLimits,
    text::Refusal::NoMemory,
];

#[inline]
pub fn refused(why: Refusal) -> Answer {
    Answer::Refused(REFUSALS[usize::from(why.number()) - 1])
}

#[inline]
fn wish_of(wish: text::Wish) -> anwalghid::Wish {
    match wish {
        text::Wish::NotWanted => anwalghid::Wish::NotWanted,
        text::Wish::Writable => anwalghid::Wish::Writable,
        text::Wish::Unwritable => anwalghid::Wish::Unwritable,
    }
}

#[inline]
fn hart_of(hart: u64) -> Hart {
    Hart(hart as usize)
}

#[inline]
fn done((): ()) -> Answer {
    Answer::Done
}

#[inline]
fn made(pid: Pid) -> Answer {
    Answer::Pid(pid.0)
}

#[inline]
fn handed(slot: Slot) -> Answer {
    Answer::Slot(slot.0)
}

#[inline]
fn waited(waited: Waited) -> Answer {
    match waited {
        Waited::Reaped { pid, status } => Answer::Reaped(pid.0, status),
        Waited::Blocked => Answer::Blocked,
    }
}

#[inline]
fn joined(joined: Joined) -> Answer {
    match joined {
        Joined::Status(status) => Answer::Joined(status),
        Joined::Blocked => Answer::Blocked,
    }
}

#[inline]
fn exited(exited: Exited) -> Answer {
    match exited {
        Exited::Gone => Answer::Done,
        Exited::Blocked => Answer::Blocked,
    }
}

#[inline]
fn mapped_of([entry, ret, stack, top]: [bool; 4]) -> Mapped {
    Mapped {
        entry,
        ret,
        stack,
        top,
    }
}

/// Any call but `list`, `show` and `fresh`.
#[inline]
pub fn answer(table: &mut Table, call: &Call) -> Answer {
    match *call {
        Call::Boot => table.user_init().map(made),
        Call::Start => table.start_init_process().map(done),
        Call::Spawn { ref name, entry } => table.spawn_system_thread(name, entry).map(made),
        Call::SystemReturn(hart) => table.free_system_thread(hart_of(hart)).map(done),
        Call::Fork { hart, memory } => table.fork(hart_of(hart), memory).map(made),
        Call::Thread {
            hart,
            entry,
            arg,
            stack,
            ret,
            mapped,
        } => {
            let ask = ThreadAsk {
                entry,
                arg,
                stack,
                ret,
            };
            let thread = table.create_user_thread(hart_of(hart), ask, mapped_of(mapped));
            thread.map(made)
        }
        _ => return answer_running(table, call),
    }
    .unwrap_or_else(refused)
}

#[inline]
fn answer_running(table: &mut Table, call: &Call) -> Answer {
    match *call {
        Call::Dispatch(hart) => table.dequeue_runnable(hart_of(hart)).map(handed),
        Call::Yield(hart) => table.yielding(hart_of(hart)).map(done),
        Call::Sleep { hart, channel } => table.sleep(hart_of(hart), Channel(channel)).map(done),
        Call::Wake(channel) => table.wake_up(Channel(channel)).map(done),
        Call::Kill(pid) => table.kill(Pid(pid)).map(done),
        Call::Wait { hart, wish } => table.wait(hart_of(hart), wish_of(wish)).map(waited),
        Call::Join { hart, pid, wish } => table
            .join_user_thread(hart_of(hart), Pid(pid), wish_of(wish))
            .map(joined),
        Call::Exit { hart, status } => table.exit(hart_of(hart), status).map(exited),
        Call::ThreadExit { hart, status } => table.thread_exit(hart_of(hart), status).map(exited),
        Call::Grow {
            hart,
            count,
            memory,
        } => table.grow_proc(hart_of(hart), count, memory).map(done),
        _ => unreachable!("{call} is no call on the table"),
    }
    .unwrap_or_else(refused)
}
