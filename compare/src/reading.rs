//! One script: the archive's answer, words and trees beside the Rust's and the second parser's.
use crate::from_records::{self, Held, Statement};
use crate::memory::{Contents, Memory, Room, OLD_ENTRY, OLD_RECORD};
use crate::rules::{accepted, may_open, refused, LISTS, NOTHING};
use crate::scan::{cut, scan, Fault, Kind, Scan};
use crate::second::{self, Expected};
use crate::tree::Tree;
use crate::verdict::{self, Verdict};
use calls::{Answer, ENTRY, MOST_BYTES, MOST_RECORDS, MOST_STATEMENTS, MOST_TOKENS, RECORD};

/// What was found of a script without a difference.
#[derive(Debug, Clone, Copy, PartialEq)]
pub enum Same {
    /// The archive's answer is the Rust's.
    AsRust(Answer),
    /// The archive's answer is the second parser's. The Rust does not know the edition.
    AsSecond(Answer),
    /// The Rust has no such limit, or there is no such edition; the answer is the one that the rule gives.
    ByRule(Answer),
    /// Outside what is compared: a character outside strings and comments that is not ASCII.
    Outside,
}

impl Same {
    /// What the archive answers, where that was compared.
    pub fn answer(self) -> Option<Answer> {
        match self {
            Self::AsRust(answer) | Self::AsSecond(answer) | Self::ByRule(answer) => Some(answer),
            Self::Outside => None,
        }
    }
}

/// At most 32 constructs stand in one another.
pub const DEPTH: usize = 32;

/// Reads a script in an edition and such room on both sides, or says what differs.
pub fn compare(edition: u32, script: &str, room: Room) -> Result<Same, String> {
    compare_memory(edition, script, room).map(|(same, _)| same)
}

/// The same, with what the archive left. The second parser reads both editions, so that the Rust holds it to the rules that
/// they share.
pub fn compare_memory(edition: u32, script: &str, room: Room) -> Result<(Same, Contents), String> {
    let mut memory = Memory::new(script.as_bytes(), room, &LISTS);
    let answer = memory.read(edition)?;
    as_second(
        &memory,
        answer,
        &second::read(script.as_bytes(), edition, room, &LISTS),
    )?;
    let same = match edition {
        1 => judge(script, room, &memory, answer)?,
        2 => Same::AsSecond(answer),
        _ => Same::ByRule(answer),
    };
    Ok((same, memory.contents()))
}

/// The answer and every word are those of the second parser; a refusal has no words.
fn as_second(memory: &Memory, answer: Answer, expected: &Expected) -> Result<(), String> {
    if answer != expected.answer {
        return Err(format!(
            "the archive answers {answer:?}, the second parser {:?}",
            expected.answer
        ));
    }
    let words = &expected.words;
    same_words(memory.records(), &words.records, OLD_RECORD, RECORD)?;
    same_words(memory.directory(), &words.directory, OLD_ENTRY, ENTRY)
}

/// The words of a slice that are used, by their width, and behind them the old ones.
fn same_words(words: &[u32], expected: &[u32], old: u32, width: usize) -> Result<(), String> {
    let (used, rest) = words.split_at(expected.len());
    let mut pairs = used.chunks(width).zip(expected.chunks(width));
    match pairs.find(|(own, expected)| own != expected) {
        None => untouched(rest, old),
        Some((own, expected)) => Err(format!(
            "the archive writes {own:?}, the second parser {expected:?}"
        )),
    }
}

fn judge(script: &str, room: Room, memory: &Memory, answer: Answer) -> Result<Same, String> {
    let text = cut(script.as_bytes());
    if text.len() > MOST_BYTES {
        let expected = refused(text, Fault { ground: 1, byte: 0 }, NOTHING);
        return by_rule(memory, answer, expected);
    }
    let found = scan(text);
    if is_outside(script, &found) {
        return Ok(Same::Outside);
    }
    if let Some(fault) = beyond(text, &found, answer) {
        if fault.ground == 15 {
            no_earlier(text, &found, fault)?;
        }
        return by_rule(memory, answer, refused(text, fault, NOTHING));
    }
    match verdict::verdict(script_of(text), &found.pieces)? {
        Verdict::Unlexed(fault, place) => {
            same_place(answer, place)?;
            as_rust(memory, answer, refused(text, fault, NOTHING))
        }
        Verdict::Refused(fault) => as_rust(memory, answer, refused(text, fault, NOTHING)),
        Verdict::Accepted(trees) => judge_accepted(text, room, memory, answer, &found, &trees),
    }
}

/// The script was text, and is cut at a zero byte, which is no part of a character.
fn script_of(text: &[u8]) -> &str {
    std::str::from_utf8(text).expect("a script that is text, cut before a zero byte")
}

fn is_outside(script: &str, found: &Scan) -> bool {
    let at = |fault: Fault| script.as_bytes()[fault.byte];
    found
        .fault
        .is_some_and(|fault| fault.ground == 3 && !at(fault).is_ascii())
}

/// The refusals that the Rust does not have: 6, 7 and 15. How deep a script is, the Rust does not say. So of 15 it is
/// checked that enough stands before it which can open a construct.
fn beyond(text: &[u8], found: &Scan, answer: Answer) -> Option<Fault> {
    if let Some(fault) = found.fault {
        return (fault.ground == 6).then_some(fault);
    }
    let tokens = found
        .pieces
        .iter()
        .filter(|piece| piece.kind != Kind::Newline);
    if tokens.clone().count() > MOST_TOKENS {
        return Some(Fault {
            ground: 7,
            byte: text.len(),
        });
    }
    let byte = answer[1] as usize;
    let opening = tokens.filter(|piece| may_open(&text[piece.start..piece.end]));
    let mut starts = opening
        .map(|piece| piece.start)
        .filter(|start| *start <= byte);
    let is_deep = answer[0] == 15 && starts.clone().count() > DEPTH && starts.any(|s| s == byte);
    is_deep.then_some(Fault { ground: 15, byte })
}

/// What the Rust refuses where it stands must not stand before the place that is too deep.
fn no_earlier(text: &[u8], found: &Scan, deep: Fault) -> Result<(), String> {
    match verdict::verdict(script_of(text), &found.pieces)? {
        Verdict::Refused(fault) if matches!(fault.ground, 8 | 9) && fault.byte < deep.byte => Err(
            format!("the archive answers {deep:?}, the Rust before it {fault:?}"),
        ),
        _ => Ok(()),
    }
}

fn as_rust(memory: &Memory, answer: Answer, expected: Answer) -> Result<Same, String> {
    unchanged(memory, answer, expected)?;
    Ok(Same::AsRust(answer))
}

fn by_rule(memory: &Memory, answer: Answer, expected: Answer) -> Result<Same, String> {
    unchanged(memory, answer, expected)?;
    Ok(Same::ByRule(answer))
}

/// A refusal has this answer and leaves the words.
fn unchanged(memory: &Memory, answer: Answer, expected: Answer) -> Result<(), String> {
    same_answer(answer, expected)?;
    untouched(memory.records(), OLD_RECORD)?;
    untouched(memory.directory(), OLD_ENTRY)
}

fn same_answer(answer: Answer, expected: Answer) -> Result<(), String> {
    if answer == expected {
        Ok(())
    } else {
        Err(format!(
            "the archive answers {answer:?}, expected {expected:?}"
        ))
    }
}

/// Line and column are those that the Rust's lexer tells.
fn same_place(answer: Answer, place: [u32; 2]) -> Result<(), String> {
    if answer[2..4] == place {
        Ok(())
    } else {
        Err(format!(
            "the archive answers {answer:?}, the Rust line and column {place:?}"
        ))
    }
}

fn untouched(words: &[u32], old: u32) -> Result<(), String> {
    match words.iter().position(|word| *word != old) {
        None => Ok(()),
        Some(k) => Err(format!(
            "a word is written that is not used, {} from the end",
            words.len() - k
        )),
    }
}

fn judge_accepted(
    text: &[u8],
    room: Room,
    memory: &Memory,
    answer: Answer,
    found: &Scan,
    trees: &[Tree],
) -> Result<Same, String> {
    let counts @ [_, statements, records, _] = counts(text, found, trees);
    let fits = records <= MOST_RECORDS.min(room.records / RECORD)
        && statements <= MOST_STATEMENTS.min(room.directory / ENTRY);
    if !fits {
        let fault = Fault {
            ground: 16,
            byte: text.len(),
        };
        return by_rule(memory, answer, refused(text, fault, NOTHING));
    }
    let latest = trees.iter().map(Tree::latest).max().unwrap_or(0);
    same_answer(answer, accepted(counts, latest, 1))?;
    let (record_words, directory_words) = (records * RECORD, statements * ENTRY);
    untouched(&memory.records()[record_words..], OLD_RECORD)?;
    untouched(&memory.directory()[directory_words..], OLD_ENTRY)?;
    same_trees(
        &Held {
            script: text,
            currencies: LISTS.currencies,
            records: &memory.records()[..record_words],
            directory: &memory.directory()[..directory_words],
            pieces: &found.pieces,
        },
        trees,
    )?;
    Ok(Same::AsRust(answer))
}

/// Bytes, statements, records and tokens.
fn counts(text: &[u8], found: &Scan, trees: &[Tree]) -> [usize; 4] {
    let records = trees.iter().map(Tree::nodes).sum();
    let tokens = found
        .pieces
        .iter()
        .filter(|piece| piece.kind != Kind::Newline);
    [text.len(), trees.len(), records, tokens.count()]
}

/// The trees are the Rust's, and so are their latest dates; and each statement's bytes, read by the Rust alone, are that
/// statement.
fn same_trees(held: &Held, trees: &[Tree]) -> Result<(), String> {
    for (statement, expected) in from_records::statements(held)?.iter().zip(trees) {
        let Statement {
            start,
            end,
            latest,
            tree,
        } = statement;
        if tree != expected {
            return Err(format!("the archive reads {tree:?}, the Rust {expected:?}"));
        }
        if *latest != expected.latest() {
            return Err(format!(
                "the archive's latest date of {expected:?} is {latest}"
            ));
        }
        let alone = verdict::accepted(script_of(&held.script[*start..*end]))?;
        if alone != [expected.clone()] {
            return Err(format!(
                "bytes {start} to {end} are read by the Rust as {alone:?}"
            ));
        }
    }
    Ok(())
}
