//! Where the text of each node ends. A record says where it begins. It goes on as far as its parts and its own signs and
//! words do, and up to the bracket that closes each one opened in it, since every node's text has its brackets in pairs.

use std::ops::Range;

use gorembiin::{Fields, Kind, Record, Statement};

use crate::tokens::{tokens, Token};

/// The text of each record of a statement, in the library's order, as bytes of the script. A statement of a body has its
/// `;` too; and the last record, which is the statement itself, has all of its bytes.
pub fn spans(statement: &Statement) -> Vec<Range<usize>> {
    let text = statement.text();
    let tokens = tokens(text);
    let mut spans: Vec<Range<usize>> = Vec::new();
    // which records are not yet a part of another
    let mut roots: Vec<usize> = Vec::new();
    for record in statement.records() {
        let parts = roots.split_off(roots.len() - record.parts() as usize);
        let first = tokens.partition_point(|token| token.start < record.place() as usize);
        let ends: Vec<usize> = parts.iter().map(|&part| spans[part].end).collect();
        let end = end(&tokens, record, first, &ends);
        if matches!(record.kind(), Some(Kind::If | Kind::ForEach)) {
            for &part in &parts[1..] {
                let end = &mut spans[part].end;
                *end += usize::from(text[tokens[*end].start] == b';');
            }
        }
        roots.push(spans.len());
        spans.push(first..end);
    }
    if let Some(whole) = spans.last_mut() {
        *whole = 0..tokens.len();
    }
    let start = statement.start() as usize;
    spans.iter().map(|span| start + tokens[span.start].start..start + tokens[span.end - 1].end).collect()
}

/// The token behind the text of a record. The text begins with the token `first`, and those of its parts end at `ends`.
fn end(tokens: &[Token], record: Record, first: usize, ends: &[usize]) -> usize {
    let behind = ends.last().map_or(first + 1, |&end| end);
    match (record.kind(), record.fields()) {
        // a minus stands before the literal, where it is negated
        (_, Fields::Constant { literal, .. }) => first + 1 + usize::from(literal.start != record.place()),
        (Some(Kind::Spot | Kind::EquitySpot | Kind::Df | Kind::RateIndex), _) => closed(tokens, first, first + 2),
        (Some(Kind::Mean | Kind::Std), _) => closed(tokens, first, behind + 3),
        (_, Fields::Pays { date, currency }) => {
            closed(tokens, first, behind) + 2 * usize::from(date.is_some()) + 2 * usize::from(currency.is_some())
        }
        (_, Fields::ForEach { .. } | Fields::If { first_else: None }) => {
            let block = closed(tokens, first, ends[0]);
            closed(tokens, block, block + 1)
        }
        (_, Fields::If { first_else: Some(_) }) => {
            let block = closed(tokens, first, ends[0]);
            let other = closed(tokens, block, block + 1) + 1;
            closed(tokens, other, other + 1)
        }
        _ => closed(tokens, first, behind),
    }
}

/// The token behind the last bracket that closes one of the tokens from `first` to `end`; `end`, if none is open there.
fn closed(tokens: &[Token], first: usize, end: usize) -> usize {
    let closing = tokens[first..end].iter().filter_map(|token| token.closed_by);
    closing.max().map_or(end, |last| end.max(last + 1))
}

#[cfg(test)]
mod tests {
    use super::spans;
    use gorembiin::{Edition, Lists, Note, Record, Statement, Which};

    const LISTS: Lists = Lists { reserved: b"", currencies: b"USD\nEUR\n", day_counters: b"A360\n" };

    /// Every kind of node, and what may stand round one and within.
    const SCRIPTS: [&str; 14] = [
        "(a + b) * c; a * (b + c); ((a)) + (((b))); +a * b; -(a) * b; a * -b; - 2 ** (2); +(-1);",
        "a == (b) and (c) != d or e > f; (a >= b) and c < d or (true <= false); a / b - c;",
        "[]; [1, (2), [3,],]; [1][0]; a[(0)].append([b],)[1].mean ( ) . std(); +a[-a[0]];",
        "x = (a); x = [ ]; x += (a + (b)); x -= 1; x *= (((a))); x /= -a; x = x + 1;",
        "pays; pays a (b) -c [d] on \"2026-06-30\" in \"EUR\"; pays (pays a in \"USD\") (pays) on \"2026-06-30\";",
        "x pays; x pays (a); x pays a on \"2026-06-30\" pays pays a on \"2026-06-30\" on \"2026-07-31\" in \"EUR\";",
        "ln(a); exp((a)); pow(a, b) ** pow((a), (b),); min(a, b, c,); max((a), -b); fif(a, b, c, (d)); range(1, 2);",
        "Spot(\"EUR\"); Spot(\"EUR\", \"USD\", \"2026-06-30\") + Spot(\")\") * Df(\"2026-06-30\", \"(\") ** Df(\"2026-06-30\");",
        "RateIndex(\"a\", \"2026-06-30\", \"2026-07-31\") - cvg(\"2026-06-30\", (\"2026-07-31\"), \"A360\"); \"a;\" + \"}\";",
        "if a { } if (a) { b; } else { } if a { } else { b; } if a == (b) { x = 1; (c); } else { if d { } else { } e; }",
        "for i in [1] { } for i in (a) { x += (i); for j in i { pays j; pays on \"2026-06-30\" } } for k in pays a in \"EUR\" { }",
        "# c\n( # ( \"\na // )\n) * b # ;\n; if a # {\n{ # }\nb\n; }\n \"é\" + [ \"(\" ] ; x = \"#\" ; y pays",
        "(pays 1 on \"2026-06-30\" + 2); x = pays in \"USD\" * -1; [(pays) == a];",
        "a ** b ** c; (a) ** (b + c) ** (d); -a ** -(b) ** +c[0] ** 2 * d; -2 ** 2; a or (b) and c or (d); +(a) ** b * c;",
    ];

    /// What of a record does not depend on where its statement stands: its place is counted from `from` on.
    fn seen(statement: &Statement, record: Record, from: usize) -> ([u32; 3], usize, Vec<u8>) {
        let [kind, nodes, parts, ..] = record.words();
        let name = statement.text_of(record, Which::First).bytes.to_vec();
        ([kind, nodes, parts], record.place() as usize - from, name)
    }

    /// A text read as an operand or, where it is none, as a statement; and where in what was read it begins.
    fn alone(edition: Edition, text: &[u8]) -> (Note<'static>, usize) {
        let is_whole = text.ends_with(b";") || text.ends_with(b"}");
        let statement = [text, if is_whole { b"" } else { b";" }].concat();
        let operand = [b"(", text, b");"].concat();
        let read = |script: &[u8]| Note::read(script, edition, LISTS);
        read(&operand).map_or_else(|_| (read(&statement).unwrap(), 0), |note| (note, 1))
    }

    fn assert_read_alone(edition: Edition, script: &str) {
        let note = Note::read(script.as_bytes(), edition, LISTS).unwrap();
        for statement in note.statements() {
            let records: Vec<Record> = statement.records().collect();
            for (number, span) in spans(&statement).into_iter().enumerate() {
                let text = &note.script()[span.clone()];
                let (alone, begin) = alone(edition, text);
                let only = alone.statements().next().unwrap();
                let mut read: Vec<_> = only.records().map(|record| seen(&only, record, begin)).collect();
                let nodes = records[number].nodes() as usize;
                if read.len() == nodes + 2 {
                    // the sum in a compound assignment is read as the whole of it
                    read.remove(0);
                    read.pop();
                }
                let own = &records[number + 1 - nodes..=number];
                let from = span.start - statement.start() as usize;
                let own: Vec<_> = own.iter().map(|&record| seen(&statement, record, from)).collect();
                assert_eq!(read, own, "{edition}, {}", String::from_utf8_lossy(text));
            }
        }
    }

    #[test]
    fn the_text_of_a_node_is_read_as_that_node() {
        for script in SCRIPTS {
            assert_read_alone(Edition::One, script);
            assert_read_alone(Edition::Two, script);
        }
        assert_read_alone(Edition::Two, "x # c\n= -2**3**2; x\n+= (a); x\npays 1;");
    }
}
