//! Names that records hold.

mod common;

use common::{note, LISTS};
use gorembiin::{part, Kind, Part, Record, Source, Which};

const NOWHERE: Part = Part { source: Source::Script, start: 0, bytes: b"" };

/// The name of the first record of a kind, in a script of which it is not in the first statement.
fn name_in(script: &str, kind: Kind, which: Which) -> (Source, usize, String) {
    let note = note(&format!("k;\n{script}"));
    let statement = note.statements().nth(1).unwrap();
    let record = statement.records().find(|record| record.kind() == Some(kind)).unwrap();
    let part = statement.text_of(record, which);
    (part.source, part.start, String::from_utf8(part.bytes.to_vec()).unwrap())
}

fn in_script(start: usize, name: &str) -> (Source, usize, String) {
    (Source::Script, start, name.to_owned())
}

fn in_list(start: usize, name: &str) -> (Source, usize, String) {
    (Source::Currencies, start, name.to_owned())
}

#[test]
fn names_are_parts_of_the_script() {
    let first = |script, kind| name_in(script, kind, Which::First);
    assert_eq!(first("abc = 1;", Kind::Variable), in_script(3, "abc"));
    assert_eq!(first("x = \"a b\";", Kind::String), in_script(8, "a b"));
    assert_eq!(first("x = \"\";", Kind::String), in_script(8, ""));
    assert_eq!(first("x = Spot(\"ACME\");", Kind::EquitySpot), in_script(13, "ACME"));
    assert_eq!(first("x = Df(\"2026-01-01\", \"OIS\");", Kind::Df), in_script(25, "OIS"));
    let index = "x = RateIndex(\"E\", \"2026-01-01\", \"2026-07-01\");";
    assert_eq!(first(index, Kind::RateIndex), in_script(18, "E"));
    assert_eq!(first("for ij in [1] { x; }", Kind::ForEach), in_script(7, "ij"));
}

#[test]
fn currencies_are_parts_of_the_list() {
    assert_eq!(name_in("pays 1 in \"CHF\";", Kind::Pays, Which::First), in_list(8, "CHF"));
    let spot = "x = Spot(\"EUR\", \"CHF\");";
    assert_eq!(name_in(spot, Kind::Spot, Which::First), in_list(4, "EUR"));
    assert_eq!(name_in(spot, Kind::Spot, Which::Second), in_list(8, "CHF"));
    assert_eq!(name_in("x = Spot(\"EUR\");", Kind::Spot, Which::Second), in_list(0, "USD"));
}

#[test]
fn what_is_absent_is_empty() {
    let nowhere = in_script(0, "");
    assert_eq!(name_in("x = Df(\"2026-01-01\");", Kind::Df, Which::First), nowhere);
    assert_eq!(name_in("pays 1;", Kind::Pays, Which::First), nowhere);
    assert_eq!(name_in("abc = 1;", Kind::Variable, Which::Second), nowhere);
    assert_eq!(name_in("abc = 1;", Kind::Assign, Which::First), nowhere);
}

#[test]
fn the_place_of_a_record_is_not_asked() {
    for place in [0, 1, 6, u32::MAX] {
        let variable = Record::from_words([1, 1, 0, 2, 3, 0, 0, place]);
        let part = part(b"abcdef", LISTS.currencies, variable, 1, Which::First);
        assert_eq!(part, Part { source: Source::Script, start: 3, bytes: b"def" });
    }
}

#[test]
fn any_words_are_answered() {
    let variable = |start, length| Record::from_words([1, 1, 0, start, length, 0, 0, 0]);
    let looked = |record, start| part(b"abcdef", LISTS.currencies, record, start, Which::First);
    assert_eq!(looked(variable(2, 3), 1), Part { source: Source::Script, start: 3, bytes: b"def" });
    assert_eq!(looked(variable(2, 4), 1), NOWHERE);
    assert_eq!(looked(variable(u32::MAX, 2), 1), NOWHERE);
    assert_eq!(looked(variable(1, 1), u32::MAX), NOWHERE);
    assert_eq!(looked(Record::from_words([u32::MAX; 8]), 0), NOWHERE);
    let spot = Record::from_words([32, 1, 0, 4, 0, 0, 0, 0]);
    assert_eq!(looked(spot, 0), NOWHERE);
    let pays = Record::from_words([36, 1, 0, 0, 1, 0, 0, 0]);
    assert_eq!(part(b"", b"USD", pays, 0, Which::First), NOWHERE);
    assert_eq!(part(b"", &[], pays, 0, Which::First), NOWHERE);
}
