//! A list on which the two sides part, made short and plain.

use crate::batch::Batch;
use crate::oracle::Oracle;
use crate::pipe;
use std::io::Result;
use text::Call;

/// The two sides, to be asked again and again.
pub struct Sides<'a> {
    pub oracle: &'a mut Oracle,
    pub command: &'a [String],
}

impl Sides<'_> {
    /// The list, cut after the first difference, if there is one.
    fn cut(&mut self, list: &[Call]) -> Result<Option<Vec<Call>>> {
        let mut batch = Batch::default();
        batch.add_list(self.oracle, 1, list);
        let output = pipe::run(self.command, &batch.input)?;
        let found = batch.compare(&output);
        Ok(found.map(|difference| list.iter().take(difference.call + 1).cloned().collect()))
    }

    /// The first of the candidates that still parts the two sides, all tried in one run.
    fn first_parting(&mut self, candidates: &[Vec<Call>]) -> Result<Option<Vec<Call>>> {
        let mut batch = Batch::default();
        for list in candidates.iter().filter(|list| !list.is_empty()) {
            batch.add_list(self.oracle, 1, list);
        }
        let output = pipe::run(self.command, &batch.input)?;
        match batch.compare(&output) {
            None => Ok(None),
            // Alone, in case the run was led astray by an earlier list.
            Some(difference) => self.cut(&batch.lists[difference.list]),
        }
    }

    /// Takes the first candidate that still parts the two, as long as there is one.
    fn repeat(
        &mut self,
        mut list: Vec<Call>,
        candidates: impl Fn(&[Call]) -> Vec<Vec<Call>>,
    ) -> Result<Vec<Call>> {
        while let Some(better) = self.first_parting(&candidates(&list))? {
            list = better;
        }
        Ok(list)
    }

    /// A short list on which the two sides part.
    pub fn reduce(&mut self, list: &[Call]) -> Result<Vec<Call>> {
        let Some(mut list) = self.cut(list)? else {
            return Ok(list.to_vec());
        };
        let mut count = list.len().div_ceil(2);
        while count > 0 {
            list = self.repeat(list, |list| shortened(list, count))?;
            count /= 2;
        }
        while list.len() <= PAIRS_UP_TO {
            let before = list.len();
            list = self.repeat(list, without_pairs)?;
            list = self.repeat(list, |list| shortened(list, 1))?;
            if list.len() == before {
                break;
            }
        }
        self.repeat(list, simplified)
    }
}

/// Lists longer than this are not tried without each pair.
const PAIRS_UP_TO: usize = 40;

fn takes_a_pid(call: &Call) -> bool {
    matches!(
        call,
        Call::Boot | Call::Spawn { .. } | Call::Fork { .. } | Call::Thread { .. }
    )
}

/// The call with its pid as it is when that many pids less were taken before.
fn lowered(call: &Call, by: u64) -> Call {
    let mut call = call.clone();
    if let Call::Kill(pid) | Call::Join { pid, .. } = &mut call {
        *pid = pid.saturating_sub(by);
    }
    call
}

/// The list without the calls from `start` to `end`, and the same with pids lowered.
fn without(list: &[Call], start: usize, end: usize) -> [Vec<Call>; 2] {
    let taken = list[start..end].iter().filter(|call| takes_a_pid(call));
    let taken = taken.count() as u64;
    let rest = list[end..].iter().map(|call| lowered(call, taken));
    let kept = [&list[..start], &list[end..]].concat();
    [kept, list[..start].iter().cloned().chain(rest).collect()]
}

fn shortened(list: &[Call], count: usize) -> Vec<Vec<Call>> {
    let starts = (0..list.len()).step_by(count);
    starts
        .flat_map(|start| without(list, start, (start + count).min(list.len())))
        .collect()
}

fn without_pairs(list: &[Call]) -> Vec<Vec<Call>> {
    let pairs = (0..list.len()).flat_map(|j| (0..j).map(move |i| (i, j)));
    pairs
        .flat_map(|(i, j)| without(list, j, j + 1).map(|list| without(&list, i, i + 1)))
        .flatten()
        .collect()
}

/// The call with plain numbers in it.
fn plain(call: &Call) -> Call {
    let mut call = call.clone();
    match &mut call {
        Call::Thread {
            entry,
            arg,
            stack,
            ret,
            ..
        } => (*entry, *arg, *stack, *ret) = (0, 0, 0, 0),
        Call::Spawn { name, entry } => (*name, *entry) = (b"a".to_vec(), 1),
        Call::Exit { status, .. } | Call::ThreadExit { status, .. } => *status = 1,
        _ => {}
    }
    call
}

/// The list with one of its calls made plain.
fn simplified(list: &[Call]) -> Vec<Vec<Call>> {
    let places = (0..list.len()).filter(|&i| plain(&list[i]) != list[i]);
    places
        .map(|i| {
            let mut list = list.to_vec();
            list[i] = plain(&list[i]);
            list
        })
        .collect()
}
