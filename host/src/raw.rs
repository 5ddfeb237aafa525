//! The archive's functions, and the words that they work on. All `unsafe` of the crate stands here.
//!
//! The declarations follow crates/anwalghid/src: a lent slice is a pointer and a length, a lent
//! array a pointer, and what comes back is a code.

use crate::answer::{impossible, Answer};
use crate::Table;

/// `Table::WORDS` in crates/words: 21 columns of the slots, 4 cells, and a cell for each hart.
const WORDS: usize = 21 * Table::SLOTS + 4 + Table::HARTS;

type Row = [u64; WORDS];

type Said = [u64; 3];

/// `WORDS` in crates/sights/src/slot.rt.
pub type Sight = [u64; 10];

/// The codes of crates/anwalghid/src/lib.rt. The third, 1, is for any number of tables but one.
const ANSWERED: u64 = 0;
const OUT_OF_RANGE: u64 = 2;

/// One table in order: its words were those of a fresh table first, and after that only calls wrote.
#[derive(Clone)]
pub struct Words([Row; 1]);

extern "C" {
    fn anwalghid_new(tables: *mut Row, count: usize) -> u64;
    fn anwalghid_spawn_system_thread(
        tables: *mut Row,
        count: usize,
        name: *const u8,
        len: usize,
        entry: u64,
        answer: *mut Said,
    ) -> u64;
    fn anwalghid_proc_dump(
        tables: *const Row,
        count: usize,
        buffer: *mut u8,
        len: usize,
        answer: *mut Said,
    ) -> u64;
    fn anwalghid_show(
        tables: *const Row,
        count: usize,
        buffer: *mut u8,
        len: usize,
        answer: *mut Said,
    ) -> u64;
    fn anwalghid_slot(tables: *const Row, count: usize, s: usize, seen: *mut Sight) -> u64;
}

/// The calls that take numbers alone, each as a function of the archive and as one of `Words`.
macro_rules! calls {
    ($($exported:ident, $call:ident($($argument:ident: $kind:ty),*);)*) => {
        extern "C" {
            $(fn $exported(
                tables: *mut Row,
                count: usize,
                $($argument: $kind,)*
                answer: *mut Said,
            ) -> u64;)*
        }

        impl Words {
            $(#[inline]
            pub fn $call(&mut self, $($argument: $kind),*) -> Answer {
                let mut said = [0; 3];
                // SAFETY: one table, in order, and three words apart from it, lent for the call.
                let code = unsafe { $exported(self.0.as_mut_ptr(), 1, $($argument,)* &mut said) };
                answered(code, said)
            })*
        }
    };
}

calls! {
    anwalghid_user_init, user_init();
    anwalghid_start_init_process, start_init_process();
    anwalghid_free_system_thread, free_system_thread(hart: usize);
    anwalghid_fork, fork(hart: usize, memory: u64);
    anwalghid_create_user_thread,
        create_user_thread(hart: usize, entry: u64, arg: u64, stack: u64, ret: u64, mapped: u64);
    anwalghid_dequeue_runnable, dequeue_runnable(hart: usize);
    anwalghid_yielding, yielding(hart: usize);
    anwalghid_sleep, sleep(hart: usize, channel: u64);
    anwalghid_wake_up, wake_up(channel: u64);
    anwalghid_kill, kill(p: u64);
    anwalghid_wait, wait(hart: usize, wish: u64);
    anwalghid_join_user_thread, join_user_thread(hart: usize, p: u64, wish: u64);
    anwalghid_thread_exit, thread_exit(hart: usize, status: u64);
    anwalghid_exit, exit(hart: usize, status: u64);
    anwalghid_grow_proc, grow_proc(hart: usize, count_of_bytes: i64, memory: u64);
}

#[inline]
fn answered(code: u64, said: Said) -> Answer {
    match code {
        ANSWERED => Answer(said),
        _ => impossible(code, &said),
    }
}

impl Words {
    /// Zero words are a fresh table in order: `Table::new` in crates/words returns them and is
    /// proved to. The archive has no function that a `const` could call; a test compares.
    #[inline]
    pub const fn fresh() -> Self {
        Words([[0; WORDS]])
    }

    #[inline]
    pub fn renew(&mut self) {
        // SAFETY: one table, lent for the call. This one asks for no order: it makes it.
        let code = unsafe { anwalghid_new(self.0.as_mut_ptr(), 1) };
        answered(code, [0; 3]);
    }

    #[inline]
    pub fn spawn_system_thread(&mut self, name: &[u8], entry: u64) -> Answer {
        let (name, len, mut said) = (name.as_ptr(), name.len(), [0; 3]);
        // SAFETY: as for any call; and `len` bytes of a name, lent for the call.
        let code = unsafe {
            anwalghid_spawn_system_thread(self.0.as_mut_ptr(), 1, name, len, entry, &mut said)
        };
        answered(code, said)
    }

    #[inline]
    pub fn proc_dump(&self, buffer: &mut [u8]) -> Answer {
        let (to, len, mut said) = (buffer.as_mut_ptr(), buffer.len(), [0; 3]);
        // SAFETY: one table, in order, only read; `len` bytes and three words apart from it.
        let code = unsafe { anwalghid_proc_dump(self.0.as_ptr(), 1, to, len, &mut said) };
        answered(code, said)
    }

    #[inline]
    pub fn show(&self, buffer: &mut [u8]) -> Answer {
        let (to, len, mut said) = (buffer.as_mut_ptr(), buffer.len(), [0; 3]);
        // SAFETY: as in proc_dump.
        let code = unsafe { anwalghid_show(self.0.as_ptr(), 1, to, len, &mut said) };
        answered(code, said)
    }

    /// None past the table's end.
    #[inline]
    pub fn slot(&self, s: usize) -> Option<Sight> {
        let mut seen = [0; 10];
        // SAFETY: one table, in order, only read; ten words apart from it.
        match unsafe { anwalghid_slot(self.0.as_ptr(), 1, s, &mut seen) } {
            ANSWERED => Some(seen),
            OUT_OF_RANGE => None,
            code => impossible(code, &seen),
        }
    }
}

#[cfg(test)]
mod tests {
    use super::*;

    /// A fresh table is written over three rows of ones: the archive's table is as long as a row,
    /// and what it writes is what `fresh` has.
    #[test]
    fn a_row_is_the_archives_table() {
        let mut rows = [[u64::MAX; WORDS]; 3];
        // SAFETY: the row in the middle, by a pointer that may reach all three.
        let code = unsafe { anwalghid_new(rows.as_mut_ptr().add(1), 1) };
        assert_eq!(code, ANSWERED);
        assert!(rows[0].iter().chain(&rows[2]).all(|&word| word == u64::MAX));
        assert_eq!(rows[1], Words::fresh().0[0]);
    }

    /// Two tables in order, lent as `count` of them, and an answer that nobody wrote.
    fn lent(count: usize, call: impl Fn(*mut Row, usize, *mut Said) -> u64) -> u64 {
        let mut rows = [Words::fresh().0[0], Words::fresh().0[0]];
        let (before, mut said) = (rows, [7; 3]);
        let code = call(rows.as_mut_ptr(), count, &mut said);
        assert!(rows == before && said == [7; 3]);
        code
    }

    #[test]
    fn not_one_table_is_refused_and_nothing_touched() {
        for count in [0, 2] {
            // SAFETY: `count` tables in order, and three words.
            let boot = |t, n, a| unsafe { anwalghid_user_init(t, n, a) };
            let name = b"clock".as_ptr();
            let spawn = |t, n, a| unsafe { anwalghid_spawn_system_thread(t, n, name, 5, 1, a) };
            let new = |t, n, _| unsafe { anwalghid_new(t, n) };
            assert_eq!(
                [lent(count, boot), lent(count, spawn), lent(count, new)],
                [1; 3]
            );
        }
    }

    #[test]
    fn an_argument_outside_its_range_is_refused_and_nothing_touched() {
        // SAFETY: one table in order, and three words.
        let calls: [&dyn Fn(*mut Row, usize, *mut Said) -> u64; 5] = [
            &|t, n, a| unsafe { anwalghid_fork(t, n, 0, 2, a) },
            &|t, n, a| unsafe { anwalghid_create_user_thread(t, n, 0, 0, 0, 0, 0, 16, a) },
            &|t, n, a| unsafe { anwalghid_wait(t, n, 0, 3, a) },
            &|t, n, a| unsafe { anwalghid_join_user_thread(t, n, 0, 1, u64::MAX, a) },
            &|t, n, a| unsafe { anwalghid_grow_proc(t, n, 0, 1, 2, a) },
        ];
        for call in calls {
            assert_eq!(lent(1, call), OUT_OF_RANGE);
        }
    }
}
