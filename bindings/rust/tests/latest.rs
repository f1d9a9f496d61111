//! The latest date, of each statement and of the whole note.

mod common;

use common::{assert_as_read, latest_of_records, note, refusal, LISTS};
use gorembiin::{amend, read, Counts, Date, Ground, Note, ENTRY_WORDS, RECORDS, RECORD_WORDS};

fn new_year(year: u32) -> Option<Date> {
    Date::new(year, 1, 1)
}

/// What a note says of its statements and of itself, which must be what its records say.
fn latest(note: &Note) -> (Vec<Option<Date>>, Option<Date>) {
    let statements: Vec<_> = note.statements().map(|statement| statement.latest()).collect();
    assert_eq!(statements, note.statements().map(|statement| latest_of_records(&statement)).collect::<Vec<_>>());
    assert_eq!(note.latest(), statements.iter().copied().max().flatten());
    (statements, note.latest())
}

#[test]
fn each_kind_that_has_a_date_counts() {
    let scripts = [
        r#"Spot("EUR", "USD", "2026-01-01");"#,
        r#"Spot("ACME", "2026-01-01");"#,
        r#"Df("2026-01-01", "OIS");"#,
        r#"RateIndex("E", "2025-01-01", "2026-01-01");"#,
        r#"RateIndex("E", "2026-01-01", "2025-01-01");"#,
        r#"pays 1 on "2026-01-01" in "CHF";"#,
    ];
    for script in scripts {
        assert_eq!(latest(&note(script)), (vec![new_year(2026)], new_year(2026)), "{script}");
    }
}

#[test]
fn a_statement_without_a_date_has_none() {
    let scripts = [
        "x = 20260101;",
        r#"x = "2026-01-01";"#,
        r#"x = cvg("2026-01-01", "2027-01-01", "Actual360");"#,
        r#"Spot("EUR", "USD");"#,
        r#"Spot("ACME");"#,
        "pays 1;",
    ];
    for script in scripts {
        assert_eq!(latest(&note(script)), (vec![None], None), "{script}");
    }
    assert_eq!(latest(&note("# none\n")), (vec![], None));
}

#[test]
fn dates_in_bodies_and_in_operands_count() {
    let scripts = [
        r#"if Df("2026-01-01") > 0 { x = 1; }"#,
        r#"if x { Df("2026-01-01"); } else { Df("2025-01-01"); }"#,
        r#"if x { Df("2025-01-01"); } else { if y { pays 1 on "2026-01-01"; } }"#,
        r#"for i in [1, Df("2026-01-01")] { Df("2025-01-01"); }"#,
        r#"for i in [1] { Df("2024-01-01"); for j in [2] { Df("2026-01-01"); } Df("2025-01-01"); }"#,
        r#"x pays max(Df("2025-01-01"), -Df("2026-01-01")) on "2024-01-01";"#,
    ];
    for script in scripts {
        assert_eq!(latest(&note(script)), (vec![new_year(2026)], new_year(2026)), "{script}");
    }
}

#[test]
fn a_note_has_the_latest_date_of_its_statements() {
    let years = [2024, 2026, 2025];
    for turn in 0..years.len() {
        let turned: Vec<u32> = years.iter().cycle().skip(turn).take(years.len()).copied().collect();
        let script: String = turned.iter().map(|year| format!("Df(\"{year}-01-01\");\nx;\n")).collect();
        let statements: Vec<_> = turned.iter().flat_map(|&year| [new_year(year), None]).collect();
        assert_eq!(latest(&note(&script)), (statements, new_year(2026)));
    }
}

#[test]
fn an_amendment_raises_and_lowers_it() {
    let mut note = note(r#"Df("2030-01-01"); Df("2020-01-01");"#);
    let steps: [(u32, &str, Vec<u32>); 5] = [
        (0, "\n", vec![2020]),
        (0, r#"Df("2025-01-01"); Df("2019-01-01");"#, vec![2025, 2019]),
        (1, r#"Df("2040-01-01");"#, vec![2025, 2040]),
        (0, r#"Df("2024-01-01");"#, vec![2024, 2040]),
        (1, r#"Df("2023-01-01");"#, vec![2024, 2023]),
    ];
    for (statement, text, years) in steps {
        note.amend(statement, text.as_bytes()).unwrap();
        let dates: Vec<_> = years.iter().map(|&year| new_year(year)).collect();
        assert_eq!(latest(&note), (dates.clone(), dates.into_iter().max().flatten()));
        assert_as_read(&note);
    }
    note.amend(0, b"x;").unwrap();
    note.amend(1, b"").unwrap();
    assert_eq!(latest(&note), (vec![None], None));
}

#[test]
fn a_refused_amendment_leaves_it() {
    let mut note = note(r#"Df("2030-01-01"); Df("2020-01-01");"#);
    let before = latest(&note);
    for (statement, text) in [(0, r#"Df("2040-01-01")"#), (1, r#"Df("2040-02-30");"#), (2, "\n")] {
        note.amend(statement, text.as_bytes()).unwrap_err();
        assert_eq!(latest(&note), before, "{text}");
    }
}

/// The memory of a note, as it was lent to the calls.
struct Lent {
    script: Vec<u8>,
    records: Vec<u32>,
    directory: Vec<u32>,
    counts: Counts,
}

impl Lent {
    fn read(script: &str) -> Self {
        let (mut records, mut directory) = (vec![0; RECORDS * RECORD_WORDS], vec![0; 4 * ENTRY_WORDS]);
        let counts = read(script.as_bytes(), 1, &LISTS, &mut records, &mut directory).unwrap();
        Lent { script: script.as_bytes().to_vec(), records, directory, counts }
    }

    /// The fifth word of an entry.
    fn latest_of(&mut self, entry: usize) -> &mut u32 {
        &mut self.directory[entry * ENTRY_WORDS + 4]
    }

    /// Amends it by a text, with such a latest date beside its counts. Refused, it must be as it was.
    fn amend(&mut self, latest: u32, statement: u32, text: &str) -> Result<Counts, Ground> {
        let before = (self.script.clone(), self.records.clone(), self.directory.clone());
        let held = Counts { latest, ..self.counts };
        let (script, records, directory) = (&mut self.script, &mut self.records, &mut self.directory);
        let answer = amend(script, held, statement, text.as_bytes(), &LISTS, records, directory);
        if let Err(refused) = answer {
            assert_eq!((self.script.clone(), self.records.clone(), self.directory.clone()), before);
            assert_eq!(refused, refusal(refused.ground, 0, 1, 1));
        }
        answer.map_err(|refused| refused.ground)
    }
}

#[test]
fn a_date_that_is_not_the_greatest_of_the_entries_is_refused() {
    let (later, earlier) = (new_year(2030).unwrap().count(), new_year(2020).unwrap().count());
    for latest in [0, earlier, later - 1, later + 1, u32::MAX] {
        let mut lent = Lent::read(r#"Df("2030-01-01"); Df("2020-01-01");"#);
        assert_eq!(lent.amend(latest, 1, "x;"), Err(Ground::Directory), "{latest}");
        // it stands before all other grounds
        assert_eq!(lent.amend(latest, 2, "\0$"), Err(Ground::Directory), "{latest}");
        assert_eq!(lent.amend(later, 1, "x;").unwrap().latest, later);
    }
}

#[test]
fn without_entries_it_is_0() {
    let mut lent = Lent::read("");
    assert_eq!(lent.amend(1, 0, "x;"), Err(Ground::Directory));
    assert_eq!(lent.amend(u32::MAX, 0, "x;"), Err(Ground::Directory));
    assert_eq!(lent.amend(0, 0, "x;"), Err(Ground::NoStatement));
}

#[test]
fn entries_that_no_reading_wrote_keep_their_words() {
    let mut lent = Lent::read("x;y;z;");
    (*lent.latest_of(0), *lent.latest_of(1), *lent.latest_of(2)) = (7, u32::MAX, 9_000_000);
    assert_eq!(lent.amend(9_000_000, 1, "Df(\"2020-01-01\");"), Err(Ground::Directory));
    lent.script.resize(64, 0);
    let counts = lent.amend(u32::MAX, 1, "Df(\"2020-01-01\");").unwrap();
    assert_eq!(counts.latest, 9_000_000);
    assert_eq!([0, 1, 2].map(|entry| *lent.latest_of(entry)), [7, new_year(2020).unwrap().count(), 9_000_000]);
}
