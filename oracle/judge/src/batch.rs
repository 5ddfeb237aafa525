//! Many lists with the oracle's answers, ready to be sent, and the comparison with what comes back.

use crate::oracle::Oracle;
use text::{answer_into, Answer, Call, Lane, View};

/// Lists and the text that the other side has to write.
#[derive(Default)]
pub struct Batch {
    pub lists: Vec<Vec<Call>>,
    pub input: Vec<u8>,
    pub expected: Vec<u8>,
    /// For each call of each list, the lines before its answer.
    marks: Vec<(usize, usize, usize)>,
    lines: usize,
    view: View,
}

/// Where the two sides part.
pub struct Difference {
    pub list: usize,
    pub call: usize,
    pub expected: String,
    pub found: String,
}

impl Batch {
    fn count_lines(&mut self, from: usize) {
        let new = &self.expected[from..];
        self.lines += new.iter().filter(|&&byte| byte == b'\n').count();
    }

    fn make(&mut self, oracle: &mut Oracle, call: &Call) -> Answer {
        let from = self.expected.len();
        call.put(&mut self.input);
        let answer = match call {
            Call::List(_) | Call::Show | Call::Fresh => {
                answer_into(oracle, call, &mut self.view, &mut self.expected);
                Answer::Done
            }
            call => {
                let answer = oracle.answer(call);
                answer.put(&mut self.expected);
                answer
            }
        };
        self.count_lines(from);
        answer
    }

    /// Adds a list: each call is chosen after the answer to the one before. `show` follows every
    /// call, or every so many.
    pub fn add(
        &mut self,
        oracle: &mut Oracle,
        show_every: usize,
        mut next: impl FnMut(&View, Option<(&Call, &Answer)>) -> Option<Call>,
    ) {
        let mut calls = Vec::new();
        self.make(oracle, &Call::Fresh);
        let mut last = None;
        while let Some(call) = next(oracle.now(), last.as_ref().map(|(c, a)| (c, a))) {
            self.marks.push((self.lines, self.lists.len(), calls.len()));
            let answer = self.make(oracle, &call);
            calls.push(call.clone());
            last = Some((call, answer));
            if calls.len() % show_every == 0 {
                self.make(oracle, &Call::Show);
            }
        }
        if calls.len() % show_every != 0 {
            self.make(oracle, &Call::Show);
        }
        self.lists.push(calls);
    }

    /// Adds a list as it is.
    pub fn add_list(&mut self, oracle: &mut Oracle, show_every: usize, list: &[Call]) {
        let mut calls = list.iter();
        self.add(oracle, show_every, |_, _| calls.next().cloned());
    }

    /// The first line in which the other side differs, byte for byte.
    pub fn compare(&self, found: &[u8]) -> Option<Difference> {
        let mut theirs = found.split_inclusive(|&byte| byte == b'\n');
        let ours = self.expected.split_inclusive(|&byte| byte == b'\n');
        for (number, our) in ours.enumerate() {
            let their = theirs.next().unwrap_or(b"(nothing)\n");
            if our != their {
                return Some(self.difference(number, our, their));
            }
        }
        let more = theirs.next()?;
        Some(self.difference(self.lines, b"(nothing)\n", more))
    }

    fn difference(&self, line: usize, our: &[u8], their: &[u8]) -> Difference {
        let after = self.marks.partition_point(|&(lines, _, _)| lines <= line);
        let (_, list, call) = self.marks[after.saturating_sub(1)];
        let text = |line: &[u8]| String::from_utf8_lossy(line).trim_end().to_string();
        Difference {
            list,
            call,
            expected: text(our),
            found: text(their),
        }
    }
}
