//! A script that is read and then amended, call by call, beside the rules and beside a fresh read of the whole.
use crate::memory::{Contents, Memory, Room};
use crate::reading::{self, Same};
use crate::rules::LISTS;
use crate::splice::{latest, outcome, Outcome, State};
use calls::{totals, Answer, Change, Totals, ANSWER, EDITION, ENTRY, LATEST, RECORD, TOTALS};

/// The statement that is replaced, and by which bytes.
#[derive(Debug, Clone, PartialEq)]
pub struct Step {
    pub statement: u32,
    pub text: Vec<u8>,
}

/// What is changed behind the library's back, before the steps.
#[derive(Debug, Clone, Copy, PartialEq)]
pub enum Harm {
    /// One of the totals.
    Total(usize, u32),
    /// A word of the directory.
    Entry(usize, u32),
    /// The latest dates of the first entries, and the script's with them, so that the state stays in order.
    Dates([u32; 6]),
}

#[derive(Debug, Clone)]
pub struct Run {
    pub edition: u32,
    pub script: String,
    /// Bytes of room behind the script.
    pub spare: usize,
    pub room: Room,
    pub harm: Option<Harm>,
    pub steps: Vec<Step>,
}

/// The state before the first step and after each, with the answer that has its totals.
pub type Trace = Vec<(Answer, Contents)>;

/// Byte that fills the room behind a script and its zero byte.
pub const SPARE: u8 = 0xee;

impl Run {
    /// The script slice: a zero byte ends the script, where there is room behind it.
    pub fn lent(&self) -> Vec<u8> {
        let mut bytes = self.script.as_bytes().to_vec();
        if self.spare > 0 {
            bytes.push(0);
            bytes.resize(self.script.len() + self.spare, SPARE);
        }
        bytes
    }
}

/// Runs the read and the steps.
pub fn compare(run: &Run) -> Result<Trace, String> {
    let mut memory = Memory::new(&run.lent(), run.room, &LISTS);
    let mut answer = memory.read(run.edition)?;
    alone(run, &memory, answer)?;
    let mut as_read = answer[0] == 0;
    if let Some(harm) = run.harm {
        memory = harmed(&memory, harm, &mut answer);
        as_read = false;
    }
    let mut trace = vec![(answer, memory.contents())];
    for step in &run.steps {
        let before = memory.contents();
        let totals = totals(&answer);
        let change = Change {
            statement: step.statement,
            text: &step.text,
        };
        let expected = expected(&before, totals, change)?;
        answer = memory.amend(change, &totals)?;
        same(&memory, answer, &expected)?;
        if as_read && answer[0] == 0 {
            fresh(run.edition, &memory, answer)?;
        }
        trace.push((answer, memory.contents()));
    }
    Ok(trace)
}

/// The script in a slice of its own is read so too, and compared with the Rust or the second parser.
fn alone(run: &Run, memory: &Memory, answer: Answer) -> Result<(), String> {
    let (same, contents) = reading::compare_memory(run.edition, &run.script, run.room)?;
    let as_alone = same.answer().is_none_or(|alone| alone == answer);
    let same_words =
        contents.records == memory.records() && contents.directory == memory.directory();
    if as_alone && same_words {
        Ok(())
    } else {
        Err(format!(
            "answer {answer:?}, and without room behind it {same:?}"
        ))
    }
}

fn harmed(memory: &Memory, harm: Harm, answer: &mut Answer) -> Memory<'static> {
    let mut contents = memory.contents();
    let (_, totals) = answer.split_at_mut(ANSWER - TOTALS);
    match harm {
        Harm::Total(k, word) => totals[k] = word,
        Harm::Entry(k, word) => {
            if let Some(old) = contents.directory.get_mut(k) {
                *old = word;
            }
        }
        Harm::Dates(dates) => {
            let used = &mut contents.directory[..totals[1] as usize * ENTRY];
            for (entry, date) in used.chunks_exact_mut(ENTRY).zip(dates) {
                entry[LATEST] = date;
            }
            totals[LATEST] = latest(used);
        }
    }
    Memory::holding(&contents, &LISTS)
}

/// What the rules say. The text read alone, in the edition of the totals, is compared with the Rust or the second parser.
fn expected(contents: &Contents, totals: Totals, change: Change) -> Result<Outcome, String> {
    if let Ok(text) = std::str::from_utf8(change.text) {
        reading::compare(totals[EDITION], text, Room::ample(text.len()))
            .map_err(|found| format!("{text:?} alone: {found}"))?;
    }
    outcome(&State { contents, totals }, change)
}

fn same(memory: &Memory, answer: Answer, expected: &Outcome) -> Result<(), String> {
    let rules = expected.answer;
    if answer != rules {
        return Err(format!(
            "the archive answers {answer:?}, the rules {rules:?}"
        ));
    }
    let contents = &expected.contents;
    let slices = [
        ("script", memory.script() == contents.script),
        ("records", memory.records() == contents.records),
        ("directory", memory.directory() == contents.directory),
    ];
    match slices.iter().find(|(_, same)| !same) {
        Some((name, _)) => Err(format!(
            "answer {answer:?}, but the {name} is another than the rules say"
        )),
        None => Ok(()),
    }
}

/// The whole new script, read into new memory, has the same totals and words; and the Rust or the second parser reads it so.
fn fresh(edition: u32, memory: &Memory, answer: Answer) -> Result<(), String> {
    let [bytes, statements, records, ..] = totals(&answer).map(|word| word as usize);
    let script = &memory.script()[..bytes];
    let script = std::str::from_utf8(script).map_err(|error| error.to_string())?;
    let room = Room::of(records, statements);
    let (same, contents) = reading::compare_memory(edition, script, room)
        .map_err(|found| format!("a fresh read of {script:?}: {found}"))?;
    if !matches!(same, Same::AsRust(read) | Same::AsSecond(read) if read == answer) {
        return Err(format!(
            "answer {answer:?}, and a fresh read of {script:?} gives {same:?}"
        ));
    }
    let equal = contents.records == memory.records()[..records * RECORD]
        && contents.directory == memory.directory()[..statements * ENTRY];
    if equal {
        Ok(())
    } else {
        Err(format!(
            "the words are others than those of a fresh read of {script:?}"
        ))
    }
}
