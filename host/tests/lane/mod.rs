//! Lane's text over the linked table. `list` and `show` are the archive's own bytes.

pub mod calls;

use anwalghid::Table;
use std::io::{BufRead, Result, Write};
use text::{Answer, Call};

/// Makes the call and adds the lines of its answer.
pub fn answer_into(table: &mut Table, call: &Call, out: &mut Vec<u8>) {
    match *call {
        Call::List(room) => {
            let top = Table::LISTING_ROOM;
            let room = room.map_or(top, |room| room.min(top as u64) as usize);
            match table.proc_dump(&mut [0; Table::LISTING_ROOM][..room]) {
                Ok(listing) => out.extend_from_slice(listing),
                Err(why) => calls::refused(why).put(out),
            }
        }
        Call::Show => match table.show(&mut [0; Table::SHOW_ROOM]) {
            Ok(text) => out.extend_from_slice(text),
            Err(why) => calls::refused(why).put(out),
        },
        Call::Fresh => {
            table.renew();
            Answer::Done.put(out);
        }
        _ => calls::answer(table, call).put(out),
    }
}

/// The call that a line names, or why it names none.
fn read(line: &[u8]) -> std::result::Result<Option<Call>, String> {
    let line = std::str::from_utf8(line).map_err(|_| "not in UTF-8".to_string())?;
    Call::read(line)
}

/// Answers every line of the input, from a fresh table on.
pub fn serve(input: impl BufRead, mut output: impl Write) -> Result<()> {
    let mut table = Table::new();
    let mut out = Vec::new();
    for (number, line) in input.split(b'\n').enumerate() {
        out.clear();
        match read(&line?) {
            Ok(Some(call)) => answer_into(&mut table, &call, &mut out),
            Ok(None) => {}
            Err(why) => out.extend(format!("? line {}: {why}\n", number + 1).bytes()),
        }
        output.write_all(&out)?;
    }
    output.flush()
}
