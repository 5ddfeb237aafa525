//! All short lists over small alphabets.

use text::Call;

struct Alphabet {
    before: &'static [&'static str],
    letters: &'static [&'static str],
}

const ALPHABETS: [Alphabet; 4] = [
    Alphabet {
        before: &[],
        letters: &[
            "boot",
            "start",
            "spawn a 1",
            "dispatch 0",
            "fork 0 yes",
            "yield 0",
            "sleep 0 65",
            "wake 65",
            "kill 1",
            "wait 0 writable",
            "system-return 0",
            "list",
        ],
    },
    Alphabet {
        before: &["boot", "start", "dispatch 0", "fork 0 yes"],
        letters: &[
            "fork 1 yes",
            "dispatch 0",
            "dispatch 1",
            "yield 0",
            "wait 0 writable",
            "wait 1 not-wanted",
            "exit 0 7",
            "exit 1 8",
            "kill 1",
            "kill 2",
            "sleep 0 65",
            "wake 65",
        ],
    },
    Alphabet {
        before: &[
            "boot",
            "start",
            "dispatch 0",
            "fork 0 yes",
            "dispatch 1",
            "thread 1 1 2 0 3 yes yes yes yes",
            "dispatch 2",
        ],
        letters: &[
            "thread 2 0 0 0 0 yes yes yes yes",
            "dispatch 1",
            "dispatch 2",
            "dispatch 3",
            "thread-exit 2 4294967295",
            "thread-exit 3 6",
            "join 1 3 writable",
            "join 2 4 writable",
            "exit 1 9",
            "fork 2 yes",
            "wait 0 writable",
            "kill 3",
        ],
    },
    Alphabet {
        before: &[
            "boot",
            "start",
            "dispatch 0",
            "thread 0 0 0 0 0 yes yes yes yes",
            "thread 0 0 0 0 0 yes yes yes yes",
            "fork 0 yes",
            "dispatch 1",
            "dispatch 2",
            "dispatch 3",
        ],
        letters: &[
            "join 0 2 writable",
            "join 0 3 unwritable",
            "join 1 3 not-wanted",
            "thread-exit 1 1",
            "thread-exit 2 2",
            "dispatch 0",
            "dispatch 1",
            "fork 1 yes",
            "wait 1 writable",
            "exit 3 3",
            "kill 2",
            "yield 2",
        ],
    },
];

fn calls(lines: &[&str]) -> Vec<Call> {
    let read = |line: &&str| Call::read(line).ok().flatten();
    lines.iter().filter_map(read).collect()
}

/// Every list of that many letters, for each alphabet after its beginning.
pub fn lists(depth: u32) -> impl Iterator<Item = Vec<Call>> {
    ALPHABETS.iter().flat_map(move |alphabet| {
        let before = calls(alphabet.before);
        let letters = calls(alphabet.letters);
        let count = letters.len();
        (0..count.pow(depth)).map(move |mut number| {
            let mut list = before.clone();
            for _ in 0..depth {
                list.push(letters[number % count].clone());
                number /= count;
            }
            list
        })
    })
}
