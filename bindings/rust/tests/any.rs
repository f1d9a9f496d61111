//! Texts that nobody chose: every one is answered, and what is accepted hangs together.

mod common;

use common::{assert_as_read, latest_of_records, LISTS};
use gorembiin::{Edition, Fields, Kind, Note, Record, Statement, Which};

/// Pieces of scripts, and bytes that have no place in one.
const PIECES: [&[u8]; 35] = [
    b"x",
    b"y1",
    b" = ",
    b" += ",
    b";",
    b";\n",
    b"\n",
    b" ",
    b"\r\n",
    b"\t",
    b"# c\n",
    b"1",
    b"2.5",
    b"-",
    b"+",
    b"**",
    b" and ",
    b" or ",
    b"(",
    b")",
    b"[",
    b"]",
    b"{ ",
    b"} ",
    b"if ",
    b" else ",
    b"for i in ",
    b"pays ",
    b"\"EUR\"",
    b" in \"USD\"",
    b" on \"2026-06-30\"",
    b"Spot(",
    b".mean()",
    b"$",
    b"\xC3\xA9",
];

/// Numbers by a linear congruence, the same at each run.
struct Dice(u64);

impl Dice {
    fn below(&mut self, bound: usize) -> usize {
        self.0 = self.0.wrapping_mul(6_364_136_223_846_793_005).wrapping_add(1_442_695_040_888_963_407);
        (self.0 >> 33) as usize % bound
    }

    /// Mostly statements that can be read, so that more than the first token is reached.
    fn text(&mut self) -> Vec<u8> {
        let mut text = Vec::new();
        for _ in 0..self.below(5) {
            let year = 2020 + self.below(8);
            match self.below(8) {
                0 => text.extend(b"if x { y = -2**2; } else { pays x; }\n"),
                1 => text.extend(b"x += Spot(\"EUR\", \"CHF\");"),
                2 => text.extend(b"for i in [1, 2] { z pays i in \"CHF\"; } # c\n"),
                3 => text.extend(b"\"a\";"),
                4 => text.extend(b"z = a or -2**-x**(y1)**2 and b;"),
                5 => text.extend(format!("if x {{ pays Df(\"{year}-01-01\") on \"2024-01-01\"; }}\n").bytes()),
                _ => text.extend((0..self.below(6)).flat_map(|_| PIECES[self.below(PIECES.len())])),
            }
        }
        text
    }
}

/// What must hold of a record's place, whatever it is: it is a byte of the statement, at which a name begins if it is a
/// variable's; a string's is at the quote, and a number's at its first digit or at a minus before.
fn assert_placed(statement: &Statement, record: Record) {
    let (text, place) = (statement.text(), record.place());
    match record.fields() {
        Fields::Name(name) if record.kind() == Some(Kind::String) => assert_eq!(place + 1, name.start),
        Fields::Name(name) => assert_eq!(place, name.start),
        Fields::Constant { value, literal } if value.is_sign_negative() => {
            assert!(place < literal.start && text[place as usize] == b'-');
        }
        Fields::Constant { literal, .. } => assert_eq!(place, literal.start),
        _ => assert!(!b" \t\r\n)]};,".contains(&text[place as usize])),
    }
    let position = statement.position_of(record).unwrap();
    assert_eq!(position.byte, statement.start() + place);
}

/// No part begins before its node, and none before a part that stands before it.
fn assert_in_order(statement: &Statement) {
    // the place that the next node at each depth cannot be before
    let mut least: Vec<u32> = Vec::new();
    for branch in statement.tree() {
        least.truncate(branch.depth + 1);
        let place = branch.record.place();
        assert!(least.last().is_none_or(|&least| least <= place), "{}", String::from_utf8_lossy(statement.text()));
        least.truncate(branch.depth);
        least.push(place);
    }
}

/// Each tree has all records of its statement, each name is what its fields place, and the statements have all records. The
/// latest dates are those of the records.
fn assert_whole(note: &Note) {
    let mut records = 0;
    for statement in note.statements() {
        assert_eq!(statement.tree().count(), statement.records().len());
        assert_eq!(statement.latest(), latest_of_records(&statement));
        assert_in_order(&statement);
        records += statement.records().len();
        for record in statement.records() {
            assert_placed(&statement, record);
            if let Fields::Name(place) | Fields::ForEach { variable: place } = record.fields() {
                let name = &statement.text()[place.start as usize..][..place.length as usize];
                assert_eq!(statement.text_of(record, Which::First).bytes, name);
            }
        }
    }
    assert_eq!(records, note.counts().records as usize);
    assert_eq!(note.latest(), note.statements().filter_map(|statement| statement.latest()).max());
}

fn assert_answered(edition: Edition) {
    let mut dice = Dice(1);
    let (mut accepted, mut amended) = (0, 0);
    for _ in 0..3000 {
        let Ok(mut note) = Note::read(&dice.text(), edition, LISTS) else { continue };
        assert_whole(&note);
        accepted += 1;
        for _ in 0..4 {
            let number = dice.below(note.counts().statements as usize + 1) as u32;
            if note.amend(number, &dice.text()).is_ok() {
                assert_whole(&note);
                amended += 1;
            }
            assert_as_read(&note);
        }
    }
    // the dice must not be so unlucky that nothing is tested
    assert!(accepted > 500 && amended > 500, "{accepted} accepted, {amended} amended");
}

#[test]
fn any_text_is_answered() {
    assert_answered(Edition::One);
    assert_answered(Edition::Two);
}
