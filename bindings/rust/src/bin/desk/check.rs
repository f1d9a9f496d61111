//! `desk check`: whether a script is accepted.

use std::io::{self, Write};

use gorembiin::{Counts, Date, Edition, Note};

use crate::failure::Failure;
use crate::files::Source;
use crate::language::Language;
use crate::refused::read_or_tell;
use crate::Verdict;

pub fn check(source: &Source, language: &Language, out: &mut impl Write) -> Result<Verdict, Failure> {
    let Some(note) = read_or_tell(source, language, out)? else {
        return Ok(Verdict::Refused);
    };
    print_counts(source, &note, out)?;
    Ok(Verdict::Accepted)
}

pub fn print_counts(source: &Source, note: &Note, out: &mut impl Write) -> io::Result<()> {
    let Counts { bytes, statements, records, tokens, .. } = note.counts();
    let counts = [(bytes, "byte"), (statements, "statement"), (records, "record"), (tokens, "token")];
    let counts = counts.map(|(count, noun)| counted(count as usize, noun));
    writeln!(out, "{}: {}: {}, {}", source.name, accepted(note), counts.join(", "), latest(note.latest()))?;
    let behind = source.bytes.len() - note.script().len();
    if behind != 0 {
        let behind = counted(behind, "byte");
        writeln!(out, "{}: the script ends at the zero byte {bytes}, which leaves {behind} unread", source.name)?;
    }
    Ok(())
}

/// That a note is accepted; the first edition goes without saying.
pub fn accepted(note: &Note) -> String {
    match note.edition() {
        Edition::One => "accepted".to_owned(),
        edition => format!("accepted in {edition}"),
    }
}

/// The latest of some dates, in words.
pub fn latest(date: Option<Date>) -> String {
    date.map_or("no date".to_owned(), |date| format!("latest date {date}"))
}

/// A number with its noun.
pub fn counted(count: usize, noun: &str) -> String {
    let plural = if count == 1 { "" } else { "s" };
    format!("{count} {noun}{plural}")
}
