//! What an amendment must answer and leave: the rules, written down once more over whole slices.
use crate::memory::{Contents, Memory, Room};
use crate::rules::{accepted, refused, LISTS};
use crate::scan::{scan, Fault, Kind};
use calls::{
    Answer, Change, Totals, EDITION, EDITIONS, ENTRY, LATEST, MOST_BYTES, MOST_RECORDS,
    MOST_STATEMENTS, MOST_TOKENS, RECORD,
};

/// The memory, and the totals of what it holds.
pub struct State<'a> {
    pub contents: &'a Contents,
    pub totals: Totals,
}

impl State<'_> {
    /// Bytes, statements, records, tokens.
    fn counts(&self) -> [usize; 4] {
        let [counts @ .., _, _] = self.totals;
        counts.map(|count| count as usize)
    }

    fn edition(&self) -> u32 {
        self.totals[EDITION]
    }
}

/// The answer, and what is left.
pub struct Outcome {
    pub answer: Answer,
    pub contents: Contents,
}

/// A text read alone.
struct Alone {
    answer: Answer,
    contents: Contents,
}

/// Which parts of a state give way: bytes, and how many records, entries and tokens before, inside and behind.
struct Cut {
    statement: usize,
    start: usize,
    end: usize,
    records: usize,
    own_records: usize,
    own_tokens: usize,
}

pub fn outcome(state: &State, change: Change) -> Result<Outcome, String> {
    let refuse = |text: &[u8], ground, byte| {
        Ok(Outcome {
            answer: refused(text, Fault { ground, byte }, state.totals),
            contents: state.contents.clone(),
        })
    };
    if !EDITIONS.contains(&state.edition()) {
        return refuse(change.text, 26, 0);
    }
    if !is_in_order(state) {
        return refuse(change.text, 20, 0);
    }
    if change.statement >= state.totals[1] {
        return refuse(change.text, 17, 0);
    }
    if change.text.contains(&0) {
        return refuse(change.text, 19, 0);
    }
    let alone = read_alone(state.edition(), change.text)?;
    if (1..=15).contains(&alone.answer[0]) {
        return refuse(change.text, alone.answer[0], alone.answer[1] as usize);
    }
    if !ends_well(change.text) {
        return refuse(change.text, 18, change.text.len());
    }
    let cut = Cut::of(state, change.statement as usize);
    match counts(state, &cut, change.text, &alone) {
        Some(counts) => Ok(spliced(state, &cut, change.text, &alone, counts)),
        None => refuse(change.text, 16, change.text.len()),
    }
}

/// The entries in some words.
fn entries(words: &[u32]) -> impl Iterator<Item = [usize; ENTRY]> + '_ {
    words.chunks_exact(ENTRY).map(|entry| {
        let entry: [u32; ENTRY] = entry.try_into().expect("a chunk has its length");
        entry.map(|word| word as usize)
    })
}

/// The greatest of the entries' latest dates; 0 where there are no entries.
pub fn latest(words: &[u32]) -> u32 {
    let dates = words.chunks_exact(ENTRY).map(|entry| entry[LATEST]);
    dates.max().unwrap_or(0)
}

/// Whether counts fit, and entries are not empty, ascend without overlap inside the script, and sum up to the counts; and
/// whether the latest date is the greatest of theirs.
fn is_in_order(state: &State) -> bool {
    let [bytes, statements, records, tokens] = state.counts();
    let contents = state.contents;
    let fits = bytes <= MOST_BYTES.min(contents.script.len())
        && statements <= MOST_STATEMENTS.min(contents.directory.len() / ENTRY)
        && records <= MOST_RECORDS.min(contents.records.len() / RECORD)
        && tokens <= MOST_TOKENS;
    if !fits {
        return false;
    }
    let words = &contents.directory[..statements * ENTRY];
    let mut passed = 0;
    let in_place = entries(words).all(|[start, end, own_records, own_tokens, _]| {
        let ascends = passed <= start && start < end && end <= bytes;
        passed = end;
        ascends && own_records > 0 && own_tokens > 0
    });
    in_place
        && entries(words).map(|entry| entry[2]).sum::<usize>() == records
        && entries(words).map(|entry| entry[3]).sum::<usize>() == tokens
        && latest(words) == state.totals[LATEST]
}

/// A text for which the capacities are too small (16) is not refused here; it has no room in the counts.
fn read_alone(edition: u32, text: &[u8]) -> Result<Alone, String> {
    let mut memory = Memory::new(text, Room::ample(text.len()), &LISTS);
    let answer = memory.read(edition)?;
    let contents = memory.contents();
    Ok(Alone { answer, contents })
}

/// Empty, or ended by a line feed or the last token; and the last token, if any, is `;` or `}`.
fn ends_well(text: &[u8]) -> bool {
    let found = scan(text);
    let last = found
        .pieces
        .iter()
        .rev()
        .find(|piece| piece.kind != Kind::Newline);
    let closed = text.is_empty()
        || text.ends_with(b"\n")
        || last.is_some_and(|piece| piece.end == text.len());
    closed && last.is_none_or(|piece| matches!(&text[piece.start..piece.end], b";" | b"}"))
}

impl Cut {
    fn of(state: &State, statement: usize) -> Self {
        let all: Vec<_> = entries(&state.contents.directory)
            .take(state.totals[1] as usize)
            .collect();
        let [start, end, own_records, own_tokens, _] = all[statement];
        Self {
            statement,
            start,
            end,
            records: all[..statement].iter().map(|entry| entry[2]).sum(),
            own_records,
            own_tokens,
        }
    }
}

/// The counts of the whole, where capacity and lent slices have room for it.
fn counts(state: &State, cut: &Cut, text: &[u8], alone: &Alone) -> Option<[usize; 4]> {
    if alone.answer[0] == 16 {
        return None;
    }
    let old = state.counts();
    let new = [4, 5, 6, 7].map(|k| alone.answer[k] as usize);
    let bytes = old[0] - (cut.end - cut.start) + text.len();
    let statements = old[1] - 1 + new[1];
    let records = old[2] - cut.own_records + new[2];
    let tokens = old[3] - cut.own_tokens + new[3];
    let fits = bytes <= MOST_BYTES.min(state.contents.script.len())
        && statements <= MOST_STATEMENTS.min(state.contents.directory.len() / ENTRY)
        && records <= MOST_RECORDS.min(state.contents.records.len() / RECORD)
        && tokens <= MOST_TOKENS;
    fits.then_some([bytes, statements, records, tokens])
}

/// The text, its records and its entries in the place of the old ones.
fn spliced(state: &State, cut: &Cut, text: &[u8], alone: &Alone, counts: [usize; 4]) -> Outcome {
    let old = state.counts();
    let contents = state.contents;
    let records = cut.records * RECORD..(cut.records + cut.own_records) * RECORD;
    let new_records = &alone.contents.records[..alone.answer[6] as usize * RECORD];
    let directory = directory(state, cut, text, alone);
    let answer = accepted(counts, latest(&directory), state.edition());
    let contents = Contents {
        script: replaced(
            &contents.script,
            cut.start..cut.end,
            text,
            (old[0], counts[0]),
        ),
        records: replaced(
            &contents.records,
            records,
            new_records,
            (old[2] * RECORD, counts[2] * RECORD),
        ),
        directory: replaced(
            &contents.directory,
            0..old[1] * ENTRY,
            &directory,
            (old[1] * ENTRY, counts[1] * ENTRY),
        ),
    };
    Outcome { answer, contents }
}

/// A slice of which the first `used.0` are used and then the first `used.1`: a range gives way to new words, room that
/// becomes free is zeroed, and what lies behind both stays.
fn replaced<T: Copy + Default>(
    slice: &[T],
    range: std::ops::Range<usize>,
    new: &[T],
    used: (usize, usize),
) -> Vec<T> {
    let mut out = slice[..range.start].to_vec();
    out.extend_from_slice(new);
    out.extend_from_slice(&slice[range.end..used.0]);
    out.resize(used.1.max(used.0), T::default());
    out.extend_from_slice(&slice[out.len()..]);
    out
}

/// The entries before, the text's moved to its place, and those behind moved by what it is longer. Their latest dates stay.
fn directory(state: &State, cut: &Cut, text: &[u8], alone: &Alone) -> Vec<u32> {
    let old = &state.contents.directory[..state.totals[1] as usize * ENTRY];
    let new = &alone.contents.directory[..alone.answer[5] as usize * ENTRY];
    let longer = text.len() as i64 - (cut.end - cut.start) as i64;
    let moved = |words: &[u32], by: i64| {
        let move_word = |(k, word): (usize, &u32)| match k % ENTRY {
            0 | 1 => (i64::from(*word) + by) as u32,
            _ => *word,
        };
        words.iter().enumerate().map(move_word).collect::<Vec<_>>()
    };
    let mut words = old[..cut.statement * ENTRY].to_vec();
    words.extend(moved(new, cut.start as i64));
    words.extend(moved(&old[(cut.statement + 1) * ENTRY..], longer));
    words
}
