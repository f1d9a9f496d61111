//! What the tests share.
#![allow(dead_code)] // each test program uses its own part

pub mod calendar;
pub mod desk;

use gorembiin::{Date, Edition, Fields, Ground, Lists, Note, Record, Refusal, Statement, Which};

/// Lists with names in all three.
pub const LISTS: Lists =
    Lists { reserved: b"ln\nSpot\n", currencies: b"USD\nEUR\nCHF\n", day_counters: b"Actual360\nThirty360\n" };

/// A script in the first edition.
pub fn note(script: &str) -> Note<'static> {
    note_in(Edition::One, script)
}

pub fn note_in(edition: Edition, script: &str) -> Note<'static> {
    Note::read(script.as_bytes(), edition, LISTS).unwrap()
}

pub fn refusal(ground: Ground, byte: u32, line: u32, column: u32) -> Refusal {
    Refusal { ground, byte, line, column }
}

/// A statement's tree on one line, as `Add(x, 1)`: variables by their name, constants by their value.
pub fn tree(statement: &Statement) -> String {
    drawn(statement, |record| label(statement, record))
}

/// The same with the place of each node, as `Add@0(x@0, 1@4)`.
pub fn placed_tree(statement: &Statement) -> String {
    drawn(statement, |record| format!("{}@{}", label(statement, record), record.place()))
}

fn label(statement: &Statement, record: Record) -> String {
    match record.fields() {
        Fields::Name(_) => String::from_utf8_lossy(statement.text_of(record, Which::First).bytes).into_owned(),
        Fields::Constant { value, .. } => value.to_string(),
        _ => record.kind().unwrap().to_string(),
    }
}

fn drawn(statement: &Statement, label: impl Fn(Record) -> String) -> String {
    let mut written = String::new();
    let mut depth = 0;
    for branch in statement.tree() {
        if branch.depth > depth {
            written.push('(');
        } else if !written.is_empty() {
            written.push_str(&")".repeat(depth - branch.depth));
            written.push_str(", ");
        }
        depth = branch.depth;
        written.push_str(&label(branch.record));
    }
    written + &")".repeat(depth)
}

/// The tree of a script that has one statement, in the first edition.
pub fn tree_of(script: &str) -> String {
    tree_in(Edition::One, script)
}

pub fn tree_in(edition: Edition, script: &str) -> String {
    let note = note_in(edition, script);
    assert_eq!(note.counts().statements, 1, "{script}");
    let statement = note.statements().next().unwrap();
    tree(&statement)
}

/// The latest date that the fields of a statement's records have.
pub fn latest_of_records(statement: &Statement) -> Option<Date> {
    let latest = statement.records().map(|record| match record.fields() {
        Fields::Spot { date, .. } | Fields::EquitySpot { date, .. } => date,
        Fields::Df { date, .. } | Fields::Pays { date, .. } => date,
        Fields::RateIndex { from, to, .. } => from.max(to),
        _ => None,
    });
    latest.max().flatten()
}

/// A note must be what reading its script from the start gives, in the edition that it was read in.
pub fn assert_as_read(note: &Note) {
    let fresh = Note::read(note.script(), note.edition(), note.lists()).unwrap();
    assert_eq!(note.counts(), fresh.counts());
    assert_eq!(note.record_words(), fresh.record_words());
    assert_eq!(note.directory_words(), fresh.directory_words());
}
