//! Cases as lines of a vector file (`crates/vectors/data/FORMAT.md`).
use crate::amending::Run;
use crate::memory::{Contents, Room, OLD_ENTRY, OLD_RECORD};
use crate::rules::LISTS;
use calls::{totals, Answer};
use std::fmt::{LowerHex, Write};

/// Equal items that follow each other are written as one with their number, from so many on.
const RUN: usize = 4;

/// What the answers are those of, and the lists by name.
pub fn head() -> String {
    let lists = [
        ("reserved", LISTS.reserved),
        ("currencies", LISTS.currencies),
        ("days", LISTS.day_counters),
    ];
    let define = |(name, list)| format!("define {name} {}\n", bytes(list));
    "step C-24\n".to_string() + &lists.map(define).concat()
}

/// A read that was found equal: its edition, script and room, and what it answered and left.
pub struct Read<'a> {
    pub edition: u32,
    pub script: &'a str,
    pub room: Room,
    pub answer: Answer,
    pub left: &'a Contents,
}

/// A case of one read.
pub fn read(title: &str, read: &Read) -> String {
    let before = unread(read.script.as_bytes().to_vec(), read.room);
    let call = call("read", read.answer, &before, read.left);
    format!("{}{call}end\n", begin(title, read.edition, &before))
}

/// A case of a run: the read and the amendments, or the amendments of a state that was harmed.
pub fn run(title: &str, run: &Run, trace: &[(Answer, Contents)]) -> String {
    let (first, rest) = trace.split_first().expect("a trace has its first state");
    let unread = unread(run.lent(), run.room);
    let mut out = if run.harm.is_some() {
        begin(title, run.edition, &first.1) + &format!("counts {}\n", numbers(&totals(&first.0)))
    } else {
        begin(title, run.edition, &unread) + &call("read", first.0, &unread, &first.1)
    };
    let mut before = &first.1;
    for (step, (answer, left)) in run.steps.iter().zip(rest) {
        let name = format!("amend {} {}", step.statement, bytes(&step.text));
        out += &call(&name, *answer, before, left);
        before = left;
    }
    out + "end\n"
}

/// Memory before the first call.
fn unread(script: Vec<u8>, room: Room) -> Contents {
    Contents {
        script,
        records: vec![OLD_RECORD; room.records],
        directory: vec![OLD_ENTRY; room.directory],
    }
}

fn begin(title: &str, edition: u32, before: &Contents) -> String {
    format!(
        "case {title}\nedition {edition}\nlists @reserved @currencies @days\n{}",
        contents(before)
    )
}

fn call(name: &str, answer: Answer, before: &Contents, left: &Contents) -> String {
    let left = if before == left {
        "same\n".to_string()
    } else {
        contents(left)
    };
    format!("{name} {}\n{left}", numbers(&answer))
}

fn contents(contents: &Contents) -> String {
    format!(
        "script {}\nrecords {}\ndirectory {}\n",
        bytes(&contents.script),
        words(&contents.records),
        words(&contents.directory)
    )
}

fn numbers(numbers: &[u32]) -> String {
    numbers
        .iter()
        .map(u32::to_string)
        .collect::<Vec<_>>()
        .join(" ")
}

fn words(words: &[u32]) -> String {
    let items = words.chunk_by(|a, b| a == b).map(|run| match run {
        run if run.len() >= RUN => format!("{:x}*{}", run[0], run.len()),
        run => run.iter().map(hex).collect::<Vec<_>>().join(","),
    });
    or_none(items.collect::<Vec<_>>().join(","))
}

fn hex(word: &impl LowerHex) -> String {
    format!("{word:x}")
}

fn bytes(bytes: &[u8]) -> String {
    let mut out = String::new();
    let mut is_open = false;
    for run in bytes.chunk_by(|a, b| a == b) {
        let is_long = run.len() >= RUN;
        if !out.is_empty() && (is_long || !is_open) {
            out += ",";
        }
        is_open = !is_long;
        let digits = format!("{:02x}", run[0]);
        if is_long {
            write!(out, "{digits}*{}", run.len()).expect("a string can be written");
        } else {
            out += &digits.repeat(run.len());
        }
    }
    or_none(out)
}

fn or_none(text: String) -> String {
    if text.is_empty() {
        "-".to_string()
    } else {
        text
    }
}
