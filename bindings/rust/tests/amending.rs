//! Amendments through the bindings, each against a fresh reading of the new script.

mod common;

use common::{assert_as_read, note, refusal, tree, LISTS};
use gorembiin::{Counts, Ground, Note};

const SCRIPT: &str = "# head\nx = 1;\n\nif x { y = 2; } # tail\nz pays x;\n";

/// Each text replaces each statement of each script that arises, twice over.
const TEXTS: [&str; 5] = ["", "a = b;", "pays 1 2;\n", "p = 1;\nq = -2**2; # c\n", "for i in [1, 2] { s += i; }"];

/// Amends `note` with every text at every statement, and goes on from each result.
fn amend_all(note: &Note, turns: u32) {
    for statement in 0..note.counts().statements {
        for text in TEXTS {
            let mut amended = note.clone();
            amended.amend(statement, text.as_bytes()).unwrap();
            assert_as_read(&amended);
            if turns > 1 {
                amend_all(&amended, turns - 1);
            }
        }
    }
}

#[test]
fn an_amended_note_is_as_if_read_anew() {
    amend_all(&note(SCRIPT), 2);
}

#[test]
fn what_is_replaced_is_the_statement_alone() {
    let mut note = note(SCRIPT);
    note.amend(1, b"y = 3;").unwrap();
    assert_eq!(note.script(), b"# head\nx = 1;\n\ny = 3; # tail\nz pays x;\n");
}

#[test]
fn the_others_keep_their_records() {
    let before = note(SCRIPT);
    let mut after = before.clone();
    after.amend(1, b"u = 1;\nv = 2;").unwrap();
    let records = |note: &Note, n: usize| note.statements().nth(n).unwrap().records().collect::<Vec<_>>();
    assert_eq!(records(&after, 0), records(&before, 0));
    assert_eq!(records(&after, 3), records(&before, 2));
    let trees: Vec<String> = after.statements().map(|statement| tree(&statement)).collect();
    assert_eq!(trees, ["Assign(x, 1)", "Assign(u, 1)", "Assign(v, 2)", "Assign(z, Add(z, Pays(x)))"]);
}

#[test]
fn a_refused_amendment_changes_nothing() {
    let full = 16_384 - SCRIPT.len() + "x = 1;".len();
    let over = format!("x = 1;{}\n", " ".repeat(full - 6));
    let cases: [(u32, &str, _); 8] = [
        (3, "x;", refusal(Ground::NoStatement, 0, 1, 1)),
        (u32::MAX, "x;", refusal(Ground::NoStatement, 0, 1, 1)),
        (0, "x;\0", refusal(Ground::ZeroByte, 0, 1, 1)),
        (0, "x = 1;\nx = ;", refusal(Ground::Token, 11, 2, 5)),
        (0, "pays 1\n", refusal(Ground::BadEnd, 7, 2, 1)),
        (0, "x = 1; ", refusal(Ground::BadEnd, 7, 1, 8)),
        (0, &" ".repeat(16_385), refusal(Ground::TooLong, 0, 1, 1)),
        (0, &over, refusal(Ground::NoRoom, full as u32 + 1, 2, 1)),
    ];
    let before = note(SCRIPT);
    for (statement, text, expected) in cases {
        let mut after = before.clone();
        assert_eq!(after.amend(statement, text.as_bytes()).unwrap_err(), expected, "{text:.20}");
        assert_eq!(after.script(), before.script());
        assert_eq!(after.counts(), before.counts());
        assert_eq!(after.record_words(), before.record_words());
        assert_eq!(after.directory_words(), before.directory_words());
    }
}

#[test]
fn a_script_can_be_filled_to_its_last_byte() {
    let mut note = note(SCRIPT);
    let full = 16_384 - SCRIPT.len() + "x = 1;".len();
    note.amend(0, format!("x = 1;{}\n", " ".repeat(full - 7)).as_bytes()).unwrap();
    assert_eq!(note.counts().bytes, 16_384);
    assert_as_read(&note);
}

#[test]
fn the_last_statement_can_be_deleted_and_none_is_left() {
    let mut note = note("x = 1;");
    note.amend(0, b"").unwrap();
    assert_eq!(note.counts(), Counts { edition: 1, ..Counts::default() });
    assert_eq!(note.statements().count(), 0);
    assert_eq!(note.amend(0, b"x = 1;").unwrap_err().ground, Ground::NoStatement);
    assert_eq!(note.lists(), LISTS);
}
