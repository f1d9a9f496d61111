//! What a reading must answer and leave, by the rules and the second parser.
use crate::climbing;
use crate::lists::is_well_formed;
use crate::memory::Room;
use crate::nodes::{Statement, Words};
use crate::rules::{accepted, refused, NOTHING};
use crate::scan::{cut, scan, Fault, Kind};
use calls::{
    Answer, Lists, EDITIONS, ENTRY, MOST_BYTES, MOST_RECORDS, MOST_STATEMENTS, MOST_TOKENS, RECORD,
};

/// The answer, and the words that are used; none where it is a refusal.
pub struct Expected {
    pub answer: Answer,
    pub words: Words,
}

pub fn read(script: &[u8], edition: u32, room: Room, lists: &Lists) -> Expected {
    let text = cut(script);
    let found =
        statements(text, edition, lists).and_then(|statements| fitting(text, &statements, room));
    match found {
        Ok((words, counts, latest)) => Expected {
            answer: accepted(counts, latest, edition),
            words,
        },
        Err(fault) => Expected {
            answer: refused(text, fault, NOTHING),
            words: Words::default(),
        },
    }
}

/// The statements of a script, whatever room there is for them.
fn statements(text: &[u8], edition: u32, lists: &Lists) -> Result<Vec<Statement>, Fault> {
    let fault = |ground, byte| Err(Fault { ground, byte });
    let are_lists = is_well_formed(lists.reserved, false)
        && is_well_formed(lists.currencies, true)
        && is_well_formed(lists.day_counters, false);
    if !EDITIONS.contains(&edition) {
        return fault(26, 0);
    }
    if text.len() > MOST_BYTES {
        return fault(1, 0);
    }
    if !are_lists {
        return fault(2, 0);
    }
    let found = scan(text);
    if let Some(fault) = found.fault {
        return Err(fault);
    }
    let tokens = found
        .pieces
        .iter()
        .filter(|piece| piece.kind != Kind::Newline);
    if tokens.count() > MOST_TOKENS {
        return fault(7, text.len());
    }
    climbing::parse(text, &found.pieces, edition, lists)
}

/// The words, counts and latest date of statements, where there is room for them.
fn fitting(
    text: &[u8],
    statements: &[Statement],
    room: Room,
) -> Result<(Words, [usize; 4], u32), Fault> {
    let words = Words::of(statements);
    let fits = words.nodes() <= MOST_RECORDS.min(room.records / RECORD)
        && words.statements() <= MOST_STATEMENTS.min(room.directory / ENTRY);
    if !fits {
        return Err(Fault {
            ground: 16,
            byte: text.len(),
        });
    }
    let tokens = statements.iter().map(|statement| statement.tokens).sum();
    let counts = [text.len(), statements.len(), words.nodes(), tokens];
    let latest = statements.iter().map(|statement| statement.latest).max();
    Ok((words, counts, latest.unwrap_or(0)))
}
