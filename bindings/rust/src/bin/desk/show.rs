//! `desk show`: the statements of a script and their trees.

use std::io::{self, Write};

use gorembiin::{Branch, Date, Fields, Kind, Part, Place, Record, Source as Of, Statement, Which};

use crate::check::{counted, latest, print_counts};
use crate::failure::Failure;
use crate::files::Source;
use crate::language::Language;
use crate::refused::read_or_tell;
use crate::visible::{quoted, visible};
use crate::Verdict;

pub fn show(source: &Source, language: &Language, out: &mut impl Write) -> Result<Verdict, Failure> {
    let Some(note) = read_or_tell(source, language, out)? else {
        return Ok(Verdict::Refused);
    };
    print_counts(source, &note, out)?;
    for statement in note.statements() {
        let line = 1 + line_feeds(&note.script()[..statement.start() as usize]);
        print_statement(&statement, line, out)?;
    }
    Ok(Verdict::Accepted)
}

fn line_feeds(bytes: &[u8]) -> usize {
    bytes.iter().filter(|&&byte| byte == b'\n').count()
}

fn print_statement(statement: &Statement, line: usize, out: &mut impl Write) -> io::Result<()> {
    let records = counted(statement.records().len(), "record");
    let tokens = counted(statement.tokens() as usize, "token");
    let latest = latest(statement.latest());
    let (number, start, end) = (statement.number(), statement.start(), statement.end());
    writeln!(out, "\nstatement {number}, line {line}, bytes {start}..{end}: {records}, {tokens}, {latest}")?;
    out.write_all(quoted(statement.text()).as_bytes())?;
    statement.tree().try_for_each(|branch| print_node(statement, branch, out))
}

/// A line for a node: the byte at which its text begins, and what it is.
pub fn print_node(statement: &Statement, branch: Branch, out: &mut impl Write) -> io::Result<()> {
    let place = statement.start() + branch.record.place();
    let (width, indent) = (statement.end().to_string().len(), 2 * branch.depth);
    writeln!(out, "  {place:>width$}  {:indent$}{}", "", described(statement, branch.record))
}

/// A record's kind, and what its fields say.
fn described(statement: &Statement, record: Record) -> String {
    let name = || named(statement.text_of(record, Which::First), record.kind());
    let said = match record.fields() {
        Fields::Nothing => String::new(),
        Fields::Name(_) | Fields::ForEach { .. } => format!(" {}", name()),
        Fields::Constant { value, literal } => format!(" {value} at {}", span(statement, literal)),
        Fields::Spot { date, .. } => {
            let second = named(statement.text_of(record, Which::Second), record.kind());
            format!(" {} in {second}{}", name(), behind_comma(date))
        }
        Fields::EquitySpot { date, .. } => format!(" {}{}", name(), behind_comma(date)),
        Fields::Df { date, curve } => {
            let curve = curve.map(|_| format!(" curve {}", name()));
            let date = date.map(|date| format!(" {date}"));
            date.unwrap_or_default() + &curve.unwrap_or_default()
        }
        Fields::RateIndex { from, to, .. } => {
            format!(" {}{}{}", name(), behind_comma(from), behind_comma(to))
        }
        Fields::Pays { date, currency } => {
            let date = date.map(|date| format!(" on {date}"));
            let currency = currency.map(|_| format!(" in {}", name()));
            date.unwrap_or_default() + &currency.unwrap_or_default()
        }
        Fields::If { first_else } => {
            first_else.map_or(String::new(), |part| format!(", part 0 is the condition, else from part {part} on"))
        }
    };
    kind_of(record) + &said
}

/// The name of a record's kind. The library writes none that has no name.
pub fn kind_of(record: Record) -> String {
    record.kind().map_or(String::new(), |kind| kind.to_string())
}

/// A name as it is written: strings have their quotes, and what is of the script has its place.
fn named(part: Part, kind: Option<Kind>) -> String {
    let text = visible(part.bytes);
    let place = format!("{}..{}", part.start, part.start + part.bytes.len());
    match (part.source, kind) {
        (Of::Currencies, _) => text,
        (Of::Script, Some(Kind::Variable | Kind::ForEach)) => format!("{text} at {place}"),
        (Of::Script, _) => format!("\"{text}\" at {place}"),
    }
}

fn span(statement: &Statement, place: Place) -> String {
    let start = statement.start() + place.start;
    format!("{start}..{}", start + place.length)
}

fn behind_comma(date: Option<Date>) -> String {
    date.map_or(String::new(), |date| format!(", {date}"))
}
