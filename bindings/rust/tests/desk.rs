//! The program `desk`, run as a user runs it.

mod common;

use common::calendar::{days, written};
use common::desk::{says, Folder};
use std::fs;

const NOTE: &[u8] = b"rate = 0.05;\nx pays rate in \"EUR\";\n";

#[test]
fn check_says_the_counts() {
    let folder = Folder::new("check_says_the_counts");
    folder.put("note", NOTE);
    let accepted = "note: accepted: 35 bytes, 2 statements, 9 records, 10 tokens, no date\n";
    assert_eq!(folder.desk(&["check", "note"]), says(0, accepted));
    let answer = folder.desk_on(&["check", "-"], NOTE);
    assert_eq!(answer, says(0, &accepted.replace("note", "standard input")));
}

#[test]
fn check_points_at_the_place() {
    let folder = Folder::new("check_points_at_the_place");
    let token = "refused on ground 8: This token is not allowed here, or the text ends too early.";
    let cases: [(&[u8], &str, &str); 7] = [
        (b"x = 1;\ny = ;\n", "line 2, column 5, byte 11", "  2 | y = ;\n    |     ^\n"),
        // tabs stay tabs, so that both lines are as wide
        (b"\tx =\t;", "line 1, column 6, byte 5", "  1 | \tx =\t;\n    | \t   \t^\n"),
        // columns are characters, and the caret is under the one that is meant
        (
            "fund = \"Société Générale\" ) ;".as_bytes(),
            "line 1, column 27, byte 30",
            "  1 | fund = \"Société Générale\" ) ;\n    |                           ^\n",
        ),
        (
            "# Crédit Mutuel, Àlava\nfund = ;".as_bytes(),
            "line 2, column 8, byte 32",
            "  2 | fund = ;\n    |        ^\n",
        ),
        // a wide character and a mark on a letter are a column each, and take two places and none in a terminal
        ("f(\"é日e\u{301}\" ;".as_bytes(), "line 1, column 2, byte 1", "  1 | f(\"é日e\u{301}\" ;\n    |  ^\n"),
        (
            "\"é日e\u{301}\" ) ;\r\n".as_bytes(),
            "line 1, column 8, byte 11",
            "  1 | \"é日e\u{301}\" ) ;\n    |        ^\n",
        ),
        (b"x = 1", "line 1, column 6, byte 5", "  1 | x = 1\n    |      ^\n"),
    ];
    for (script, place, lines) in cases {
        folder.put("note", script);
        let expected = format!("note: {token}\nnote: {place}:\n{lines}");
        assert_eq!(folder.desk(&["check", "note"]), says(1, &expected));
    }
}

#[test]
fn a_terminal_is_not_handed_control_characters() {
    let folder = Folder::new("a_terminal_is_not_handed_control_characters");
    folder.put("note", b"x = \"\x1B[2J\xFF\" $;");
    let answer = folder.desk(&["check", "note"]);
    assert!(answer.said.ends_with("  1 | x = \"\u{241B}[2J\u{FFFD}\" $;\n    |             ^\n"), "{}", answer.said);
}

#[test]
fn the_caret_follows_what_is_shown() {
    let folder = Folder::new("the_caret_follows_what_is_shown");
    // a continuation byte without a character is no column, though a terminal needs a place to show that it is there
    folder.put("note", b"\"\x80\xBF\" $;");
    let answer = folder.desk(&["check", "note"]);
    let expected = "note: line 1, column 4, byte 5:\n  1 | \"\u{FFFD}\u{FFFD}\" $;\n    |      ^\n";
    assert!(answer.said.ends_with(expected), "{}", answer.said);
}

#[test]
fn a_long_line_is_cut_around_the_place() {
    let folder = Folder::new("a_long_line_is_cut_around_the_place");
    folder.put("note", format!("x = {}$ {};", "1 + ".repeat(1000), "1 + ".repeat(1000)).as_bytes());
    let said = folder.desk(&["check", "note"]).said;
    let lines: Vec<&str> = said.lines().collect();
    assert!(lines[2..].iter().all(|line| line.chars().count() < 130), "{said}");
    let caret = lines[3].chars().position(|c| c == '^').unwrap();
    assert_eq!(lines[2].chars().nth(caret), Some('$'));
}

#[test]
fn a_script_that_is_too_long_is_told_its_length() {
    let folder = Folder::new("a_script_that_is_too_long_is_told_its_length");
    folder.put("note", &[b' '; 16_385]);
    let answer = folder.desk(&["check", "note"]);
    let expected = "note: refused on ground 1: The text is longer than the 16,384 bytes that a script may have.\n\
                    note has 16385 bytes.\n";
    assert_eq!(answer, says(1, expected));
}

#[test]
fn lists_come_from_files() {
    let folder = Folder::new("lists_come_from_files");
    folder.put("note", b"pays cvg(\"2026-01-01\", \"2026-07-01\", \"A360\") in \"CHF\";");
    folder.put("ccy", b"USD\nCHF\n");
    folder.put("days", b"A360\n");
    folder.put("taken", b"x\n");
    assert!(folder.desk(&["check", "note"]).said.contains("ground 13"));
    let days = ["check", "note", "--day-counters", "days"];
    assert!(folder.desk(&days).said.contains("ground 12"));
    let both = ["--currencies", "ccy", "check", "note", "--day-counters", "days"];
    assert_eq!(folder.desk(&both).status, 0);
    let reserved = folder.desk_on(&["check", "--reserved", "taken", "-"], b"x = 1;");
    assert!(reserved.said.contains("ground 9"));
}

#[test]
fn a_malformed_list_is_named() {
    let folder = Folder::new("a_malformed_list_is_named");
    folder.put("good", b"USD\n");
    folder.put("bad", b"A360");
    let words = ["check", "-", "--currencies", "good", "--day-counters", "bad", "--reserved", "bad"];
    let expected = "standard input: refused on ground 2: A list of names is malformed.\n\
                    Malformed: --reserved bad, --day-counters bad.\n";
    assert_eq!(folder.desk(&words), says(1, expected));
}

#[test]
fn show_prints_trees_with_names_and_places() {
    let folder = Folder::new("show_prints_trees_with_names_and_places");
    folder.put("note", b"# c\r\nx = Spot(\"EUR\") * -2**2;\r\npays \"a\tb\"\r\non \"2026-06-30\"");
    let expected = "note: accepted: 58 bytes, 2 statements, 9 records, 16 tokens, latest date 2026-06-30

statement 0, line 2, bytes 5..29: 7 records, 12 tokens, no date
  | x = Spot(\"EUR\") * -2**2;
   5  Assign
   5    Variable x at 5..6
   9    Multiply
   9      Spot EUR in USD
  23      Pow
  23        Constant -2 at 24..25
  27        Constant 2 at 27..28

statement 1, line 3, bytes 31..58: 2 records, 4 tokens, latest date 2026-06-30
  | pays \"a\tb\"
  | on \"2026-06-30\"
  31  Pays on 2026-06-30
  36    String \"a\tb\" at 37..40
";
    assert_eq!(folder.desk(&["show", "note"]), says(0, expected));
    folder.put("note", b"x = ;");
    let (shown, checked) = (folder.desk(&["show", "note"]), folder.desk(&["check", "note"]));
    assert_eq!(shown.status, 1);
    assert_eq!(shown, checked);
}

#[test]
fn each_command_reads_in_the_edition_that_is_named() {
    let folder = Folder::new("each_command_reads_in_the_edition_that_is_named");
    folder.put("note", b"x\n= -2**2;\n");
    for words in [&["check", "note"][..], &["show", "note", "--edition", "1"], &["at", "note", "0"]] {
        let answer = folder.desk(words);
        assert_eq!(answer.status, 1, "{words:?}");
        assert!(answer.said.contains("note: line 2, column 1, byte 2:"), "{}", answer.said);
    }
    let accepted = "note: accepted in edition 2: 11 bytes, 1 statement, 6 records, 7 tokens, no date\n";
    assert_eq!(folder.desk(&["check", "note", "--edition", "2"]), says(0, accepted));
    let tree = "
statement 0, line 1, bytes 0..10: 6 records, 7 tokens, no date
  | x
  | = -2**2;
   0  Assign
   0    Variable x at 0..1
   4    UnaryMinus
   5      Pow
   5        Constant 2 at 5..6
   8        Constant 2 at 8..9
";
    assert_eq!(folder.desk(&["--edition", "2", "show", "note"]), says(0, &format!("{accepted}{tree}")));
    assert_eq!(folder.desk(&["at", "note", "0", "--edition", "2"]).status, 0);
}

#[test]
fn amend_reads_both_files_in_the_edition_that_is_named() {
    let folder = Folder::new("amend_reads_both_files_in_the_edition_that_is_named");
    folder.put("note", b"x\n= 1;\ny;\n");
    folder.put("new", b"y\n= a or b and c;");
    let words = ["amend", "note", "1", "new", "--write"];
    assert!(folder.desk(&words).said.starts_with("note: refused on ground 8"));
    let answer = folder.desk(&[&words[..], &["--edition", "2"]].concat());
    assert!(answer.said.starts_with("note, statement 1: accepted in edition 2\n"), "{}", answer.said);
    assert_eq!(folder.get("note"), b"x\n= 1;\ny\n= a or b and c;\n");
    let shown = folder.desk(&["show", "note", "--edition", "2"]).said;
    let kinds: Vec<&str> = shown.lines().skip(12).filter_map(|line| line.split_whitespace().nth(1)).collect();
    assert_eq!(kinds, ["Assign", "Variable", "Or", "Variable", "And", "Variable", "Variable"], "{shown}");
}

#[test]
fn amend_prints_what_would_change() {
    let folder = Folder::new("amend_prints_what_would_change");
    folder.put("note", NOTE);
    folder.put("new", b"rate = 0.06;\nfloor = 0.01;");
    let expected = "note, statement 0: accepted
before:
  | rate = 0.05;
after, statements 0 to 1:
  | rate = 0.06;
  | floor = 0.01;
                before      after
bytes               35         49
statements           2          3
records              9         12
tokens              10         14
latest date       none       none
note: not written, which takes --write
";
    assert_eq!(folder.desk(&["amend", "note", "0", "new"]), says(0, expected));
    assert_eq!(folder.get("note"), NOTE);
    let written = folder.desk(&["amend", "note", "0", "new", "--write"]);
    assert_eq!(written.status, 0);
    assert!(written.said.ends_with("note: written\n"));
    assert_eq!(folder.get("note"), b"rate = 0.06;\nfloor = 0.01;\nx pays rate in \"EUR\";\n");
    assert_eq!(folder.names(), ["new", "note"]);
}

#[test]
fn amend_deletes_by_an_empty_text() {
    let folder = Folder::new("amend_deletes_by_an_empty_text");
    folder.put("note", NOTE);
    let answer = folder.desk(&["amend", "--write", "note", "0", "-"]);
    assert_eq!(answer.status, 0);
    assert!(answer.said.contains("after, no statement:\n  "), "{}", answer.said);
    assert_eq!(folder.get("note"), b"\nx pays rate in \"EUR\";\n");
}

#[test]
fn a_refused_amendment_leaves_the_file() {
    let folder = Folder::new("a_refused_amendment_leaves_the_file");
    folder.put("note", NOTE);
    folder.put("new", b"rate = 1;\nrate = ;");
    let expected = "note, statement 1: refused on ground 8: This token is not allowed here, or the text ends too early.
new: line 2, column 8, byte 17:
  2 | rate = ;
    |        ^
";
    assert_eq!(folder.desk(&["amend", "--write", "note", "1", "new"]), says(1, expected));
    folder.put("new", "\"Société\" ;\n\"Générale\" % 2;".as_bytes());
    let expected = "note, statement 1: refused on ground 3: No token begins with this character.
new: line 2, column 12, byte 27:
  2 | \"Générale\" % 2;
    |            ^
";
    assert_eq!(folder.desk(&["amend", "--write", "note", "1", "new"]), says(1, expected));
    let expected = "note, statement 2: refused on ground 17: There is no statement with this number.
note has the statements 0 to 1.
";
    assert_eq!(folder.desk(&["amend", "--write", "note", "2", "new"]), says(1, expected));
    assert_eq!(folder.get("note"), NOTE);
    assert_eq!(folder.names(), ["new", "note"]);
}

#[test]
fn what_is_behind_a_zero_byte_stays() {
    let folder = Folder::new("what_is_behind_a_zero_byte_stays");
    folder.put("note", b"x = 1;\0$ = ");
    folder.put("new", b"yy = 1;");
    let answer = folder.desk(&["check", "note"]);
    assert_eq!(answer.status, 0);
    assert!(answer.said.ends_with("note: the script ends at the zero byte 6, which leaves 5 bytes unread\n"));
    assert_eq!(folder.desk(&["amend", "--write", "note", "0", "new"]).status, 0);
    assert_eq!(folder.get("note"), b"yy = 1;\0$ = ");
}

#[cfg(unix)]
#[test]
fn a_written_file_keeps_its_mode_and_a_link_its_file() {
    use std::os::unix::fs::{symlink, PermissionsExt};
    let folder = Folder::new("a_written_file_keeps_its_mode_and_a_link_its_file");
    folder.put("note", NOTE);
    let note = folder.0.join("note");
    fs::set_permissions(&note, fs::Permissions::from_mode(0o640)).unwrap();
    symlink("note", folder.0.join("link")).unwrap();
    assert_eq!(folder.desk_on(&["amend", "--write", "link", "0", "-"], b"r;").status, 0);
    assert!(folder.get("note").starts_with(b"r;\n"));
    assert_eq!(fs::metadata(&note).unwrap().permissions().mode() & 0o777, 0o640);
    assert!(fs::symlink_metadata(folder.0.join("link")).unwrap().is_symlink());
}

#[test]
fn bad_usage_is_told_and_is_2() {
    let folder = Folder::new("bad_usage_is_told_and_is_2");
    folder.put("note", NOTE);
    let cases: [(&[&str], &str); 23] = [
        (&[], "no command is given"),
        (&["shew", "note"], "there is no command shew"),
        (&["show"], "show takes one file"),
        (&["check", "note", "note"], "check takes one file"),
        (&["at", "note"], "at takes a file and a place"),
        (&["at", "note", "x"], "x is not a place, which is a byte, or LINE:COLUMN"),
        (&["at", "note", "1:"], "1: is not a place"),
        (&["at", "note", "1:2:3"], "1:2:3 is not a place"),
        (&["at", "note", "4294967296"], "4294967296 is not a place"),
        (&["at", "note", "0", "--write"], "--write is an option of amend"),
        (&["check", "note", "--write"], "--write is an option of amend"),
        (&["check", "note", "--loud"], "there is no option --loud"),
        (&["check", "note", "--reserved"], "--reserved needs a file"),
        (&["check", "--reserved", "a", "--reserved", "b", "note"], "--reserved is given twice"),
        (&["check", "note", "--edition"], "--edition needs a number"),
        (&["check", "note", "--edition", "3"], "3 is no edition, which is 1 or 2"),
        (&["check", "note", "--edition", "two"], "two is no edition"),
        (&["check", "--edition", "2", "--edition", "2", "note"], "--edition is given twice"),
        (&["amend", "note", "0"], "amend takes a file"),
        (&["amend", "note", "first", "note"], "first is not a statement's number"),
        (&["amend", "note", "4294967296", "note"], "4294967296 is not a statement's number"),
        (&["amend", "-", "0", "note", "--write"], "--write needs a file"),
        (&["amend", "-", "0", "-"], "only one file can be -"),
    ];
    for (words, complaint) in cases {
        let answer = folder.desk(words);
        assert_eq!((answer.status, answer.said.as_str()), (2, ""), "{words:?}");
        assert!(answer.complained.contains(complaint), "{}", answer.complained);
    }
}

#[test]
fn a_file_that_cannot_be_read_is_named_and_is_2() {
    let folder = Folder::new("a_file_that_cannot_be_read_is_named_and_is_2");
    folder.put("note", NOTE);
    let cases: [&[&str]; 5] = [
        &["check", "gone"],
        &["at", "gone", "0"],
        &["show", "--currencies", "gone", "note"],
        &["amend", "note", "0", "gone"],
        &["amend", "gone", "0", "note"],
    ];
    for words in cases {
        let answer = folder.desk(words);
        assert_eq!((answer.status, answer.said.as_str()), (2, ""), "{words:?}");
        assert!(answer.complained.starts_with("desk: cannot read gone: "), "{}", answer.complained);
    }
}

#[test]
fn help_names_each_command() {
    let folder = Folder::new("help_names_each_command");
    for words in [&["help"][..], &["--help"], &["show", "-h"]] {
        let answer = folder.desk(words);
        assert_eq!((answer.status, answer.complained.as_str()), (0, ""));
        for command in ["desk show FILE", "desk at FILE PLACE", "desk check FILE", "desk amend FILE N TEXTFILE"] {
            assert!(answer.said.contains(command), "{command}");
        }
        assert!(answer.said.contains("--edition N"));
    }
}

#[test]
fn dates_are_shown_in_every_kind_that_has_them() {
    let folder = Folder::new("dates_are_shown_in_every_kind_that_has_them");
    let cases = [
        ("Spot(\"EUR\",\"USD\",\"2020-02-29\");", "Spot EUR in USD, 2020-02-29"),
        ("Spot(\"x\",\"2020-02-29\");", "equity spot \"x\" at 6..7, 2020-02-29"),
        ("Df(\"0001-01-01\",\"c\");", "Df 0001-01-01 curve \"c\" at 17..18"),
        ("RateIndex(\"r\",\"2019-12-31\",\"2020-01-01\");", "RateIndex \"r\" at 11..12, 2019-12-31, 2020-01-01"),
        ("pays on \"9999-12-31\" in \"EUR\"", "Pays on 9999-12-31 in EUR"),
    ];
    for (script, expected) in cases {
        let answer = folder.desk_on(&["show", "-"], script.as_bytes());
        assert_eq!(answer.said.lines().last(), Some(format!("   0  {expected}").as_str()));
    }
}

#[test]
fn the_latest_date_is_shown_before_and_after() {
    let folder = Folder::new("the_latest_date_is_shown_before_and_after");
    folder.put("note", b"Df(\"2030-01-01\"); Df(\"2020-01-01\");");
    let cases = [
        ("0", "\n", "latest date 2030-01-01 2020-01-01"),
        ("1", "Df(\"9999-12-31\");", "latest date 2030-01-01 9999-12-31"),
        ("1", "cvg(\"2040-01-01\", \"2040-07-01\", \"A360\");", "latest date 2030-01-01 2030-01-01"),
        ("0", "x = 1;", "latest date 2030-01-01 2020-01-01"),
    ];
    folder.put("days", b"A360\n");
    for (statement, text, expected) in cases {
        let words = ["amend", "note", statement, "-", "--day-counters", "days"];
        let answer = folder.desk_on(&words, text.as_bytes());
        assert!(answer.said.lines().any(|line| line == expected), "{text}: {}", answer.said);
    }
    folder.put("note", b"Df(\"2030-01-01\");");
    let answer = folder.desk(&["amend", "note", "0", "-"]);
    assert!(answer.said.contains("\nlatest date 2030-01-01       none\n"), "{}", answer.said);
}

#[test]
fn every_day_is_shown_as_it_is_written() {
    let folder = Folder::new("every_day_is_shown_as_it_is_written");
    let days: Vec<String> = days().map(written).collect();
    // a script has tokens for so many
    for days in days.chunks(800) {
        let parts: Vec<String> = days.iter().map(|day| format!("Df(\"{day}\")")).collect();
        let answer = folder.desk_on(&["show", "-"], format!("[{}];", parts.join(",")).as_bytes());
        assert_eq!((answer.status, answer.complained.as_str()), (0, ""));
        let shown: Vec<&str> = answer.said.lines().filter_map(|line| line.split("    Df ").nth(1)).collect();
        assert_eq!(shown, days);
    }
}
