//! `desk at`: the nodes whose text has a place.

use std::io::{self, Write};

use gorembiin::{Branch, Note, Position, Statement};

use crate::failure::Failure;
use crate::files::Source;
use crate::language::Language;
use crate::options::Asked;
use crate::refused::read_or_tell;
use crate::show::{kind_of, print_node};
use crate::spans::spans;
use crate::visible::pointed;
use crate::Verdict;

pub fn at(source: &Source, asked: Asked, language: &Language, out: &mut impl Write) -> Result<Verdict, Failure> {
    let Some(note) = read_or_tell(source, language, out)? else {
        return Ok(Verdict::Refused);
    };
    let position = position(&note, asked).ok_or_else(|| outside(&source.name, &note, asked))?;
    print_place(&source.name, &note, position, out)?;
    Ok(Verdict::Accepted)
}

fn position(note: &Note, asked: Asked) -> Option<Position> {
    match asked {
        Asked::Byte(byte) => note.position(byte),
        Asked::Character(line, column) => note.position_at(line, column),
    }
}

fn outside(name: &str, note: &Note, asked: Asked) -> Failure {
    let end = note.script().len();
    Failure::Place(match asked {
        Asked::Byte(byte) => format!("the script of {name} ends at byte {end}, before byte {byte}"),
        Asked::Character(line, column) => format!("the script of {name} has no line {line} with a column {column}"),
    })
}

fn print_place(name: &str, note: &Note, position: Position, out: &mut impl Write) -> io::Result<()> {
    let Position { byte, line, column } = position;
    write!(out, "{name}: line {line}, column {column}, byte {byte}: ")?;
    let shown = pointed(note.script(), character_start(note.script(), byte as usize), line);
    let statement = note.statements().find(|statement| (statement.start()..statement.end()).contains(&byte));
    let Some(statement) = statement else {
        return write!(out, "no node, {}\n{shown}", whereabouts(note, byte));
    };
    let spans = spans(&statement);
    let has_byte = |branch: &Branch| spans[branch.number].contains(&(byte as usize));
    // parents come first, and a statement's first node has all of it
    let innermost = statement.tree().filter(has_byte).last();
    if let Some(Branch { number, record, .. }) = innermost {
        let (start, end) = (spans[number].start, spans[number].end);
        writeln!(out, "{}, bytes {start}..{end}, of statement {}", kind_of(record), statement.number())?;
    }
    out.write_all(shown.as_bytes())?;
    statement.tree().filter(has_byte).try_for_each(|branch| print_node(&statement, branch, out))
}

/// The first byte of the character that has this byte, so that none is shown cut in two.
fn character_start(text: &[u8], byte: usize) -> usize {
    let Ok(text) = std::str::from_utf8(text) else {
        return byte;
    };
    (0..=byte).rev().find(|&at| text.is_char_boundary(at)).unwrap_or(byte)
}

/// Where a byte is that no statement has.
fn whereabouts(note: &Note, byte: u32) -> String {
    let is_before = |statement: &Statement| statement.end() <= byte;
    let before = note.statements().take_while(is_before).count();
    match (before, note.counts().statements as usize) {
        (_, 0) => "there are no statements".to_owned(),
        (0, _) => "before the first statement".to_owned(),
        (before, all) if before == all => "behind the last statement".to_owned(),
        (before, _) => format!("between the statements {} and {before}", before - 1),
    }
}
