//! `desk amend`: a statement replaced.

use std::io::{self, Write};

use gorembiin::{Ground, Note};

use crate::check::accepted;
use crate::failure::Failure;
use crate::files::{self, Source};
use crate::language::Language;
use crate::options::Change;
use crate::refused::{read_or_tell, tell};
use crate::visible::quoted;
use crate::Verdict;

pub fn amend(change: &Change, language: &Language, out: &mut impl Write) -> Result<Verdict, Failure> {
    let source = Source::open(&change.file)?;
    let text = Source::open(&change.text)?;
    let Some(before) = read_or_tell(&source, language, out)? else {
        return Ok(Verdict::Refused);
    };
    let what = format!("{}, statement {}", source.name, change.statement);
    let mut after = before.clone();
    if let Err(refusal) = after.amend(change.statement, &text.bytes) {
        tell(&what, &text, refusal, language, out)?;
        if refusal.ground == Ground::NoStatement {
            print_numbers(&source, before.counts().statements, out)?;
        }
        return Ok(Verdict::Refused);
    }
    writeln!(out, "{what}: {}", accepted(&after))?;
    print_change(&before, &after, change, &text, out)?;
    print_states(&before, &after, out)?;
    if change.write {
        // what is behind the script's end is not the library's, and stays
        let behind = &source.bytes[before.script().len()..];
        files::replace(&change.file, &[after.script(), behind].concat())?;
        writeln!(out, "{}: written", source.name)?;
    } else {
        writeln!(out, "{}: not written, which takes --write", source.name)?;
    }
    Ok(Verdict::Accepted)
}

fn print_numbers(source: &Source, statements: u32, out: &mut impl Write) -> io::Result<()> {
    let name = &source.name;
    match statements.checked_sub(1) {
        None => writeln!(out, "{name} has no statements."),
        Some(last) => writeln!(out, "{name} has the statements 0 to {last}."),
    }
}

fn print_change(before: &Note, after: &Note, change: &Change, text: &Source, out: &mut impl Write) -> io::Result<()> {
    let old = before.statements().nth(change.statement as usize);
    let old = old.map_or(&b""[..], |statement| statement.text());
    let first = change.statement;
    let next = first + 1 + after.counts().statements - before.counts().statements;
    let read = match next - first {
        0 => "no statement".to_owned(),
        1 => format!("statement {first}"),
        _ => format!("statements {first} to {}", next - 1),
    };
    write!(out, "before:\n{}", quoted(old))?;
    write!(out, "after, {read}:\n{}", quoted(&text.bytes))
}

fn print_states(before: &Note, after: &Note, out: &mut impl Write) -> io::Result<()> {
    let (old, new) = (before.counts(), after.counts());
    let rows = [
        ("bytes", old.bytes, new.bytes),
        ("statements", old.statements, new.statements),
        ("records", old.records, new.records),
        ("tokens", old.tokens, new.tokens),
    ];
    writeln!(out, "{:<11} {:>10} {:>10}", "", "before", "after")?;
    for (name, old, new) in rows {
        writeln!(out, "{name:<11} {old:>10} {new:>10}")?;
    }
    let latest = |note: &Note| note.latest().map_or("none".to_owned(), |date| date.to_string());
    writeln!(out, "{:<11} {:>10} {:>10}", "latest date", latest(before), latest(after))
}
