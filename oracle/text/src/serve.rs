//! A table that answers lines.

use crate::{Answer, Call, Refusal, View};
use std::io::{BufRead, Result, Write};

pub trait Lane {
    /// Any call but `list`, `show` and `fresh`.
    fn answer(&mut self, call: &Call) -> Answer;
    /// Adds the listing's text, or refuses.
    fn list(&mut self, room: Option<u64>, out: &mut Vec<u8>) -> Option<Refusal>;
    fn view(&mut self, view: &mut View);
    fn fresh(&mut self);
}

/// Makes the call and adds the lines of its answer.
pub fn answer_into(lane: &mut impl Lane, call: &Call, view: &mut View, out: &mut Vec<u8>) {
    match call {
        Call::List(room) => {
            if let Some(refusal) = lane.list(*room, out) {
                Answer::Refused(refusal).put(out);
            }
        }
        Call::Show => {
            lane.view(view);
            view.put(out);
        }
        Call::Fresh => {
            lane.fresh();
            Answer::Done.put(out);
        }
        call => lane.answer(call).put(out),
    }
}

/// Answers every line of the input.
pub fn serve(lane: &mut impl Lane, mut input: impl BufRead, mut output: impl Write) -> Result<()> {
    let mut line = Vec::new();
    let mut out = Vec::new();
    let mut view = View::default();
    let mut number = 0;
    loop {
        line.clear();
        if input.read_until(b'\n', &mut line)? == 0 {
            return output.flush();
        }
        number += 1;
        out.clear();
        let read = std::str::from_utf8(&line)
            .map_err(|_| "not in UTF-8".to_string())
            .and_then(Call::read);
        match read {
            Ok(Some(call)) => answer_into(lane, &call, &mut view, &mut out),
            Ok(None) => {}
            Err(why) => out.extend(format!("? line {number}: {why}\n").bytes()),
        }
        output.write_all(&out)?;
    }
}
