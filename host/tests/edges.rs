//! The edges: every refusal by name, buffers that just fit, names and numbers at their limits.

use anwalghid::{
    Channel, Exited, Hart, Joined, Mapped, Pid, Refusal, Slot, State, Table, ThreadAsk, Waited,
    Wish,
};
use std::sync::Mutex;

const HART: Hart = Hart(0);
const OTHER: Hart = Hart(1);
const ASK: ThreadAsk = ThreadAsk {
    entry: 0,
    arg: 9,
    stack: 0,
    ret: 1,
};

type Done = Result<(), Refusal>;

/// Init runs on hart 0.
fn started() -> Table {
    let mut table = Table::new();
    table.user_init().unwrap();
    table.start_init_process().unwrap();
    table.dequeue_runnable(HART).unwrap();
    table
}

/// A system thread runs on hart 0.
fn system() -> Table {
    let mut table = Table::new();
    table.spawn_system_thread(b"clock", 1).unwrap();
    table.dequeue_runnable(HART).unwrap();
    table
}

/// Init and its child run on harts 0 and 1.
fn with_child() -> (Table, Pid) {
    let mut table = started();
    let child = table.fork(HART, true).unwrap();
    table.dequeue_runnable(OTHER).unwrap();
    (table, child)
}

/// Init and its thread run on harts 0 and 1.
fn with_thread() -> (Table, Pid) {
    let mut table = started();
    let thread = table.create_user_thread(HART, ASK, Mapped::ALL).unwrap();
    table.dequeue_runnable(OTHER).unwrap();
    (table, thread)
}

/// No slot is UNUSED, and system threads run on harts 0 and 1.
fn full() -> Table {
    let mut table = Table::new();
    for entry in 0..Table::SLOTS as u64 {
        table.spawn_system_thread(b"", entry).unwrap();
    }
    table.dequeue_runnable(HART).unwrap();
    table.dequeue_runnable(OTHER).unwrap();
    table
}

fn thread(ask: ThreadAsk, mapped: Mapped) -> Done {
    started().create_user_thread(HART, ask, mapped).map(drop)
}

fn ended_child(wish: Wish) -> Result<Waited, Refusal> {
    let (mut table, _) = with_child();
    assert_eq!(table.exit(OTHER, u64::MAX), Ok(Exited::Gone));
    table.wait(HART, wish)
}

fn ended_thread(status: u64, wish: Wish) -> Result<Joined, Refusal> {
    let (mut table, thread) = with_thread();
    assert_eq!(table.thread_exit(OTHER, status), Ok(Exited::Gone));
    table.join_user_thread(HART, thread, wish)
}

type Reach = (Refusal, fn() -> Done);

/// Every refusal but 6: before it 2^64 - 1 pids would have to be spent.
const REACHED: [Reach; 35] = [
    (Refusal::NoSuchHart, || Table::new().yielding(Hart(8))),
    (Refusal::NoSuchHart, || {
        let hart = Hart(usize::MAX);
        Table::new().dequeue_runnable(hart).map(drop)
    }),
    (Refusal::HartIdle, || Table::new().yielding(Hart(7))),
    (Refusal::HartBusy, || {
        started().dequeue_runnable(HART).map(drop)
    }),
    (Refusal::QueueEmpty, || {
        Table::new().dequeue_runnable(HART).map(drop)
    }),
    (Refusal::TableFull, || full().user_init().map(drop)),
    (Refusal::TableFull, || {
        full().spawn_system_thread(b"", 1).map(drop)
    }),
    (Refusal::NoGroup, || system().fork(HART, true).map(drop)),
    (Refusal::NoGroup, || {
        let mut table = system();
        table.create_user_thread(HART, ASK, Mapped::ALL).map(drop)
    }),
    (Refusal::NoGroup, || {
        let joined = system().join_user_thread(HART, Pid(1), Wish::Writable);
        joined.map(drop)
    }),
    (Refusal::NoGroup, || system().grow_proc(HART, 1, true)),
    (Refusal::BadAddress, || {
        thread(ThreadAsk { stack: 1, ..ASK }, Mapped::ALL)
    }),
    (Refusal::BadAddress, || {
        thread(ThreadAsk { entry: 4096, ..ASK }, Mapped::ALL)
    }),
    (Refusal::BadAddress, || {
        thread(
            ThreadAsk {
                ret: u64::MAX,
                ..ASK
            },
            Mapped::ALL,
        )
    }),
    (Refusal::Unmapped, || {
        thread(
            ASK,
            Mapped {
                entry: false,
                ..Mapped::ALL
            },
        )
    }),
    (Refusal::Unmapped, || {
        thread(
            ASK,
            Mapped {
                ret: false,
                ..Mapped::ALL
            },
        )
    }),
    (Refusal::Unmapped, || {
        thread(
            ASK,
            Mapped {
                stack: false,
                ..Mapped::ALL
            },
        )
    }),
    (Refusal::Unmapped, || {
        thread(
            ASK,
            Mapped {
                top: false,
                ..Mapped::ALL
            },
        )
    }),
    (Refusal::NoneSuch, || started().kill(Pid(0))),
    (Refusal::NoneSuch, || started().kill(Pid(u64::MAX))),
    (Refusal::NoneSuch, || {
        started().wait(HART, Wish::NotWanted).map(drop)
    }),
    (Refusal::NoneSuch, || {
        let joined = started().join_user_thread(HART, Pid(1), Wish::NotWanted);
        joined.map(drop)
    }),
    (Refusal::StatusUnwritable, || {
        ended_child(Wish::Unwritable).map(drop)
    }),
    (Refusal::StatusUnwritable, || {
        ended_thread(0, Wish::Unwritable).map(drop)
    }),
    (Refusal::InitOutOfTurn, || started().user_init().map(drop)),
    (Refusal::InitOutOfTurn, || Table::new().start_init_process()),
    (Refusal::WrongWayOut, || started().exit(HART, 0).map(drop)),
    (Refusal::WrongWayOut, || {
        system().thread_exit(HART, 0).map(drop)
    }),
    (Refusal::WrongWayOut, || started().free_system_thread(HART)),
    (Refusal::NotADevice, || Table::new().wake_up(Channel(64))),
    (Refusal::NotADevice, || started().sleep(HART, Channel(64))),
    (Refusal::NameTooLong, || {
        let name = b"seventeen letters";
        Table::new().spawn_system_thread(name, 1).map(drop)
    }),
    (Refusal::NoRoom, || started().proc_dump(&mut []).map(drop)),
    (Refusal::SizeOutOfLimits, || {
        started().grow_proc(HART, i64::MIN, true)
    }),
    (Refusal::NoMemory, || started().fork(HART, false).map(drop)),
];

#[test]
fn every_refusal_is_reached() {
    for (number, (refusal, reach)) in REACHED.iter().enumerate() {
        assert_eq!(reach(), Err(*refusal), "row {number}");
    }
    let reached = |refusal: &Refusal| REACHED.iter().any(|(why, _)| why == refusal);
    let missing: Vec<_> = Refusal::ALL.iter().filter(|r| !reached(r)).collect();
    assert_eq!(missing, [&Refusal::PidsSpent]);
}

fn shown(table: &Table) -> Vec<u8> {
    let mut buffer = [0; Table::SHOW_ROOM];
    table.show(&mut buffer).unwrap().to_vec()
}

/// Two refusals spend a pid, and every refusal leaves all else as it was.
#[test]
fn a_refusal_changes_nothing_but_the_pid() {
    let mut table = started();
    let before = shown(&table);
    assert_eq!(table.grow_proc(HART, 1, false), Err(Refusal::NoMemory));
    assert_eq!(table.exit(HART, 1), Err(Refusal::WrongWayOut));
    assert_eq!(shown(&table), before);
    assert_eq!(table.fork(HART, false), Err(Refusal::NoMemory));
    assert_eq!(&shown(&table)[6..], &before[6..]);
    assert_eq!(table.fork(HART, true), Ok(Pid(3)));
}

/// The listing of a table with init alone.
const LISTING: &[u8] = b"pid: 1 state: RUNNING name: initname\n";

#[test]
fn a_listing_that_just_fits() {
    let table = started();
    let mut buffer = [0xAA; 64];
    let short = LISTING.len() - 1;
    let refused = table.proc_dump(&mut buffer[..short]);
    assert_eq!(refused, Err(Refusal::NoRoom));
    assert_eq!(buffer, [0xAA; 64]);
    assert_eq!(table.proc_dump(&mut buffer[..short + 1]), Ok(LISTING));
    assert_eq!(table.proc_dump(&mut buffer), Ok(LISTING));
    assert!(buffer[short + 1..].iter().all(|&byte| byte == 0xAA));
    assert_eq!(Table::new().proc_dump(&mut []), Ok(&b""[..]));
}

#[test]
fn a_show_that_just_fits() {
    let table = started();
    let mut buffer = [0xAA; Table::SHOW_ROOM + 1];
    let refused = table.show(&mut buffer[..Table::SHOW_ROOM - 1]);
    assert_eq!(refused, Err(Refusal::NoRoom));
    assert!(buffer.iter().all(|&byte| byte == 0xAA));
    let len = table.show(&mut buffer[..Table::SHOW_ROOM]).unwrap().len();
    assert_eq!(buffer[..5], *b"pids ");
    assert!(buffer[len..].iter().all(|&byte| byte == 0xAA));
}

#[test]
fn names_of_16_and_17_bytes() {
    let mut table = Table::new();
    assert_eq!(
        table.spawn_system_thread(b"sixteen letters.", 1),
        Ok(Pid(1))
    );
    let refused = table.spawn_system_thread(b"seventeen letters", 1);
    assert_eq!(refused, Err(Refusal::NameTooLong));
    assert_eq!(table.spawn_system_thread(b"", 1), Ok(Pid(2)));
    assert_eq!(table.spawn_system_thread(b"a\0b", 1), Ok(Pid(3)));
    assert_eq!(table.spawn_system_thread(b"\x7f\xff", 1), Ok(Pid(4)));
    let expected = "pid: 1 state: RUNNABLE name: sixteen letters.\n\
                    pid: 2 state: RUNNABLE name: \n\
                    pid: 3 state: RUNNABLE name: a\n\
                    pid: 4 state: RUNNABLE name: ??\n";
    let mut buffer = [0; Table::LISTING_ROOM];
    assert_eq!(table.proc_dump(&mut buffer), Ok(expected.as_bytes()));
}

#[test]
fn statuses_at_their_limits() {
    let (pid, status) = (Pid(2), u64::MAX);
    let reaped = Ok(Waited::Reaped { pid, status });
    assert_eq!(ended_child(Wish::Writable), reaped);
    assert_eq!(ended_child(Wish::NotWanted), reaped);
    let statuses = [
        (0, 0),
        (0x7FFF_FFFF, i32::MAX),
        (0x8000_0000, i32::MIN),
        (0xFFFF_FFFF, -1),
        (0x1_0000_0000, 0),
        (u64::MAX, -1),
    ];
    for (status, read) in statuses {
        let joined = ended_thread(status, Wish::Writable);
        assert_eq!(joined, Ok(Joined::Status(read)));
    }
}

#[test]
fn sizes_at_their_limits() {
    let top = 274_877_632_512;
    let mut table = started();
    for count in [-4097, i64::MIN, top + 1, i64::MAX] {
        let refused = table.grow_proc(HART, count, true);
        assert_eq!(refused, Err(Refusal::SizeOutOfLimits));
    }
    assert_eq!(table.grow_proc(HART, top, true), Ok(()));
    assert_eq!(table.grow_proc(HART, -top - 4096, false), Ok(()));
    assert_eq!(table.grow_proc(HART, 0, false), Ok(()));
}

#[test]
fn channels_at_their_limits() {
    let mut table = started();
    for channel in [Channel::FIRST_DEVICE, Channel(u64::MAX)] {
        assert!(channel.is_device() && channel.slot().is_none());
        assert_eq!(table.sleep(HART, channel), Ok(()));
        let view = table.slot(Slot(0)).unwrap();
        assert_eq!((view.state, view.channel), (State::Sleeping, channel));
        assert_eq!(table.wake_up(channel), Ok(()));
        assert_eq!(table.dequeue_runnable(HART), Ok(Slot(0)));
    }
    assert_eq!(Channel::NONE.slot(), None);
    assert_eq!(Channel(1).slot(), Some(Slot(0)));
    assert_eq!(Channel(64).slot(), Some(Slot(63)));
    assert!(!Channel(64).is_device());
}

#[test]
fn the_last_slot_and_the_one_past_it() {
    let table = full();
    let last = table.slot(Slot(63)).unwrap();
    assert_eq!((last.state, last.queued), (State::Runnable, true));
    assert_eq!((last.channel, last.killed), (Channel::NONE, false));
    assert_eq!((last.pid, last.status), (Pid(64), 0));
    assert_eq!((last.group, last.parent), (None, None));
    assert_eq!((last.thread, last.system), (false, true));
    assert_eq!(table.slot(Slot(64)), None);
    assert_eq!(table.slot(Slot(usize::MAX)), None);
}

/// A kernel's table is a static.
static TABLE: Mutex<Table> = Mutex::new(Table::new());

/// The archive's own fresh table shows the same, and goes on the same.
#[test]
fn a_static_table_is_fresh() {
    let mut table = TABLE.lock().unwrap();
    let mut renewed = full();
    renewed.renew();
    assert_eq!(shown(&table), shown(&renewed));
    assert_eq!(table.user_init(), renewed.user_init());
    assert_eq!(table.start_init_process(), Ok(()));
    assert_eq!(renewed.start_init_process(), Ok(()));
    assert_eq!(shown(&table), shown(&renewed));
}

#[test]
fn a_clone_goes_its_own_way() {
    let mut table = started();
    let before = shown(&table);
    let mut copy = table.clone();
    assert_eq!(copy.fork(HART, true), Ok(Pid(2)));
    assert_eq!(shown(&table), before);
    assert_eq!(table.fork(HART, true), Ok(Pid(2)));
    assert_eq!(shown(&table), shown(&copy));
    table.renew();
    assert_eq!(shown(&table), shown(&Table::new()));
}
