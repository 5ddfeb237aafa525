//! Recorded runs through the wrapper: document 01's worked runs, and the Rust's answers.

mod lane;

use anwalghid::{Refusal, Slot, SlotView, State, Table};
use std::fs;
use std::path::{Path, PathBuf};
use text::Call;

fn root() -> PathBuf {
    Path::new(env!("CARGO_MANIFEST_DIR")).join("..")
}

/// The calls give the text, line by line.
fn answers_are(calls: &Path, expected: &Path) {
    let mut said = Vec::new();
    lane::serve(&fs::read(calls).unwrap()[..], &mut said).unwrap();
    let (said, expected) = (
        String::from_utf8(said).unwrap(),
        fs::read_to_string(expected).unwrap(),
    );
    for (number, (ours, theirs)) in said.lines().zip(expected.lines()).enumerate() {
        assert_eq!(ours, theirs, "{}, line {}", calls.display(), number + 1);
    }
    assert_eq!(said, expected, "{}", calls.display());
}

/// Runs A to H and the one for 4224 bytes, then 3,417 calls and what the Rust answered, as the gate runs them.
#[test]
fn worked_runs_and_the_rusts_answers() {
    let folder = root().join("crates/worked");
    answers_are(&folder.join("stdin"), &folder.join("stdout"));
}

/// The same runs as the judge has them, A to I.
#[test]
fn the_judges_runs() {
    for run in 'A'..='I' {
        let calls = root().join(format!("oracle/runs/{run}.calls"));
        answers_are(&calls, &calls.with_extension("expected"));
    }
}

fn number(place: Option<usize>) -> String {
    place.map_or("-".to_string(), |number| number.to_string())
}

/// The front of the slot's line in `show`.
fn line(Slot(slot): Slot, view: &SlotView) -> String {
    format!(
        "slot {slot} {} channel {} killed {} status {} pid {} queued {} \
         parent {} thread {} system {} group {} ",
        view.state,
        view.channel.0,
        u8::from(view.killed),
        view.status,
        view.pid.0,
        u8::from(view.queued),
        number(view.parent.map(|slot| slot.0)),
        u8::from(view.thread),
        u8::from(view.system),
        number(view.group.map(|group| group.0)),
    )
}

/// What `slot` tells is what `show` tells.
fn slots_are_as_shown(table: &Table) {
    let mut buffer = [0; Table::SHOW_ROOM];
    let text = table.show(&mut buffer).unwrap();
    let mut shown = std::str::from_utf8(text).unwrap().lines().skip(1);
    for (slot, view) in table.slots() {
        if view.state != State::Unused {
            let (line, shown) = (line(slot, &view), shown.next().unwrap());
            assert!(shown.starts_with(&line), "{line}\n{shown}");
        }
    }
    assert_eq!(shown.next(), None);
}

/// After each of these calls.
#[test]
fn slots_agree_with_show() {
    let calls = fs::read_to_string(root().join("crates/worked/stdin")).unwrap();
    let mut table = Table::new();
    for line in calls.lines() {
        if let Some(call) = Call::read(line).unwrap() {
            lane::answer_into(&mut table, &call, &mut Vec::new());
            slots_are_as_shown(&table);
        }
    }
}

/// The numbers are document 01's, the words lane's.
#[test]
fn refusals_as_text() {
    for (place, &refusal) in Refusal::ALL.iter().enumerate() {
        assert_eq!(usize::from(refusal.number()), place + 1);
        let mut line = Vec::new();
        lane::calls::refused(refusal).put(&mut line);
        let words = format!("refused {} {refusal}\n", refusal.number());
        assert_eq!(String::from_utf8(line).unwrap(), words);
    }
}
