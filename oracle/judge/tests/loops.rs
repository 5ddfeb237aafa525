//! A blocked call goes on in the Rust's own loop, and only when it is made again. One test, since
//! there is one carried table in a program.

use judge::oracle::{Oracle, Word};
use text::{Answer, Call, Lane, State};

fn make(oracle: &mut Oracle, lines: &[&str]) -> Answer {
    let mut last = Answer::Done;
    for line in lines {
        let call = Call::read(line).unwrap().unwrap();
        last = oracle.answer(&call);
    }
    last
}

const BLOCKED: [&str; 5] = [
    "boot",
    "start",
    "dispatch 0",
    "fork 0 yes",
    "wait 0 writable",
];

#[test]
fn blocked_calls() {
    let mut oracle = Oracle::new(Word::Rust);

    assert_eq!(make(&mut oracle, &BLOCKED), Answer::Blocked);
    let woken = ["dispatch 1", "exit 1 7", "dispatch 2"];
    assert_eq!(make(&mut oracle, &woken), Answer::Slot(0));
    assert_eq!(oracle.now().slots[1].state, State::Zombie);
    assert_eq!(oracle.counts.same_call, 0);
    let again = ["wait 2 writable"];
    assert_eq!(make(&mut oracle, &again), Answer::Reaped(2, 7));
    assert_eq!((oracle.counts.same_call, oracle.counts.other_call), (1, 0));

    oracle.fresh();
    make(&mut oracle, &BLOCKED);
    make(&mut oracle, &woken);
    assert_eq!(make(&mut oracle, &["yield 2"]), Answer::Done);
    assert_eq!((oracle.counts.same_call, oracle.counts.other_call), (1, 1));
    let later = ["dispatch 0", "wait 0 writable"];
    assert_eq!(make(&mut oracle, &later), Answer::Reaped(2, 7));

    oracle.fresh();
    let mut guarded = Oracle::new(Word::Unguarded);
    let broken = make(&mut guarded, &["boot", "start", "dispatch 0", "exit 0 1"]);
    let words = "Fail to find parent process".to_string();
    assert_eq!(broken, Answer::Broken(words));
    guarded.fresh();
    assert_eq!(make(&mut guarded, &["boot"]), Answer::Pid(1));
}
