//! The names and numbers of anwalghid.h and of the definitions are the crate's. That they are the
//! archive's, archive.c sees.

use anwalghid::{Refusal, Table};
use std::fs;
use std::path::Path;

fn text_of(file: &str) -> String {
    let file = Path::new(env!("CARGO_MANIFEST_DIR")).join(file);
    fs::read_to_string(file).unwrap()
}

fn header() -> String {
    text_of("anwalghid.h")
}

/// Refusal 6 too, which no test can reach.
#[test]
fn refusals_are_named_and_numbered_alike() {
    let numbered = |line: &&str| line.contains(" = ") && !line.contains("_MAPPED_");
    let header = header();
    let lines: Vec<_> = header.lines().filter(numbered).collect();
    assert_eq!(lines.len(), Refusal::ALL.len());
    for (line, refusal) in lines.iter().zip(Refusal::ALL) {
        let name = refusal.to_string().to_uppercase().replace(' ', "_");
        let expected = format!("ANWALGHID_{name} = {}", refusal.number());
        assert_eq!(line.trim().trim_end_matches(','), expected);
    }
}

#[test]
fn refusals_are_numbered_as_the_definitions_do() {
    let defined = text_of("../crates/rules/specs/Answers.antt");
    let numbers = |line: &&str| line.starts_with("number_of ");
    let lines: Vec<_> = defined.lines().filter(numbers).collect();
    let ours = |refusal: &Refusal| format!("number_of {refusal:?} = {}", refusal.number());
    assert_eq!(lines, Refusal::ALL.iter().map(ours).collect::<Vec<_>>());
}

#[test]
fn sizes_are_alike() {
    let header = header();
    for (name, size) in [("SLOTS", Table::SLOTS), ("HARTS", Table::HARTS)] {
        let line = format!("#define ANWALGHID_{name} {size}");
        assert!(header.lines().any(|l| l == line), "{line}");
    }
}
