//! Where the text of each node begins.

mod common;

use common::{assert_as_read, note, placed_tree, LISTS};
use gorembiin::{Edition, Fields, Note, Position, Record, Refusal};

/// A script of one statement, and its nodes with their places.
fn assert_places(cases: &[(&str, &str)]) {
    for (script, expected) in cases {
        let note = note(script);
        let placed: Vec<String> = note.statements().map(|statement| placed_tree(&statement)).collect();
        assert_eq!(placed, [*expected], "{script}");
    }
}

#[test]
fn a_node_of_one_token_is_at_that_token() {
    assert_places(&[
        ("a;", "a@0"),
        ("true;", "True@0"),
        ("false;", "False@0"),
        ("1.5;", "1.5@0"),
        ("\"s\";", "s@0"),
        ("x = a;", "Assign@0(x@0, a@4)"),
        ("x = true;", "Assign@0(x@0, True@4)"),
        ("x = \"s\";", "Assign@0(x@0, s@4)"),
    ]);
}

#[test]
fn a_negated_number_is_at_its_minus() {
    assert_places(&[
        ("-1;", "-1@0"),
        ("- 1;", "-1@0"),
        ("(-1);", "-1@1"),
        ("+-1;", "-1@1"),
        ("--1;", "UnaryMinus@0(-1@1)"),
        ("a - -1;", "Subtract@0(a@0, -1@4)"),
        ("-2**2;", "Pow@0(-2@0, 2@4)"),
    ]);
}

#[test]
fn literals_and_strings_still_say_where_their_bytes_are() {
    let note = note("x = -  1.5; \"ab\";");
    let records: Vec<Record> = note.statements().flat_map(|statement| statement.records()).collect();
    let Fields::Constant { literal, .. } = records[1].fields() else { panic!("{:?}", records[1]) };
    assert_eq!((records[1].place(), literal.start, literal.length), (4, 7, 3));
    let Fields::Name(content) = records[3].fields() else { panic!("{:?}", records[3]) };
    assert_eq!((records[3].place(), content.start, content.length), (0, 1, 2));
}

#[test]
fn a_minus_is_where_its_node_begins() {
    assert_places(&[
        ("-a;", "UnaryMinus@0(a@1)"),
        ("-a*b;", "Multiply@0(UnaryMinus@0(a@1), b@3)"),
        ("-(a)*b;", "Multiply@0(UnaryMinus@0(a@2), b@5)"),
        ("a*-b;", "Multiply@0(a@0, UnaryMinus@2(b@3))"),
        ("-+(a);", "UnaryMinus@0(a@3)"),
        ("+-a;", "UnaryMinus@1(a@2)"),
    ]);
}

#[test]
fn parentheses_and_a_plus_are_not_the_nodes_own() {
    assert_places(&[
        ("(a);", "a@1"),
        ("+a;", "a@1"),
        ("+(+a);", "a@3"),
        ("(a+b);", "Add@1(a@1, b@3)"),
        ("c*(a+b);", "Multiply@0(c@0, Add@3(a@3, b@5))"),
        ("+(a*b);", "Multiply@2(a@2, b@4)"),
        ("([1]);", "List@1(1@2)"),
        ("(pays 1);", "Pays@1(1@6)"),
        ("x = (a);", "Assign@0(x@0, a@5)"),
    ]);
    // the statement has them all the same
    assert_eq!(note("(a);").statements().next().unwrap().start(), 0);
}

#[test]
fn a_node_with_a_left_part_begins_where_that_parts_text_does() {
    assert_places(&[
        ("(a+b)*c;", "Multiply@0(Add@1(a@1, b@3), c@6)"),
        ("+a*b;", "Multiply@0(a@1, b@3)"),
        ("((a))+b;", "Add@0(a@2, b@6)"),
        ("((a)+b)*c;", "Multiply@0(Add@1(a@2, b@5), c@8)"),
        ("((a+b)*c);", "Multiply@1(Add@2(a@2, b@4), c@7)"),
        ("(+a)*b;", "Multiply@0(a@2, b@5)"),
        ("+(a)*b;", "Multiply@0(a@2, b@5)"),
    ]);
}

#[test]
fn all_nodes_of_a_chain_begin_with_its_first_token() {
    assert_places(&[
        ("a+b+c;", "Add@0(Add@0(a@0, b@2), c@4)"),
        ("(a)+b-c;", "Subtract@0(Add@0(a@1, b@4), c@6)"),
        ("a*b/c;", "Divide@0(Multiply@0(a@0, b@2), c@4)"),
        ("a**b**c;", "Pow@0(Pow@0(a@0, b@3), c@6)"),
        ("a or b and c;", "And@0(Or@0(a@0, b@5), c@11)"),
        ("a+b*c;", "Add@0(a@0, Multiply@2(b@2, c@4))"),
        ("a*b+c;", "Add@0(Multiply@0(a@0, b@2), c@4)"),
        ("+a**b*c+d==e and f;", "And@0(Equal@0(Add@0(Multiply@0(Pow@0(a@1, b@4), c@6), d@8), e@11), f@17)"),
        ("(a)!=b;", "NotEqual@0(a@1, b@5)"),
        ("a>b;", "Superior@0(a@0, b@2)"),
        ("a<b;", "Inferior@0(a@0, b@2)"),
        ("a>=b;", "SuperiorOrEqual@0(a@0, b@3)"),
        ("a<=b;", "InferiorOrEqual@0(a@0, b@3)"),
    ]);
}

#[test]
fn postfixes_begin_with_what_they_stand_behind() {
    assert_places(&[
        ("a[0].mean();", "Mean@0(Index@0(a@0, 0@2))"),
        ("[1][0];", "Index@0(List@0(1@1), 0@4)"),
        // a plus stands before both
        ("+a[0];", "Index@1(a@1, 0@3)"),
        ("-a[0];", "UnaryMinus@0(Index@1(a@1, 0@3))"),
        ("(a.std());", "Std@1(a@1)"),
        ("b*a.append((c));", "Multiply@0(b@0, Append@2(a@2, c@12))"),
        ("+[1].mean()*2;", "Multiply@0(Mean@1(List@1(1@2)), 2@12)"),
    ]);
}

#[test]
fn calls_and_lists_are_at_their_first_token() {
    assert_places(&[
        ("[a, (b)];", "List@0(a@1, b@5)"),
        ("x = [];", "Assign@0(x@0, List@4)"),
        ("exp(a);", "Exp@0(a@4)"),
        ("pow(a, b);", "Pow@0(a@4, b@7)"),
        ("pow(a, b)**c;", "Pow@0(Pow@0(a@4, b@7), c@11)"),
        ("min(a, +b);", "Min@0(a@4, b@8)"),
        ("1+max(a, b);", "Add@0(1@0, Max@2(a@6, b@9))"),
        ("fif(a, b, c, d);", "Fif@0(a@4, b@7, c@10, d@13)"),
        ("range(1, 2);", "Range@0(1@6, 2@9)"),
        ("cvg(\"2026-01-01\", \"2026-07-01\", \"Actual360\");", "Cvg@0(2026-01-01@4, 2026-07-01@18, Actual360@32)"),
        ("x = Df(\"2026-01-01\");", "Assign@0(x@0, Df@4)"),
        ("-Df(\"2026-01-01\", \"c\");", "UnaryMinus@0(Df@1)"),
        ("RateIndex(\"a\", \"2026-01-01\", \"2026-07-01\");", "RateIndex@0"),
        ("ln(a);", "Ln@0(a@3)"),
        ("2*Spot(\"EUR\");", "Multiply@0(2@0, Spot@2)"),
        ("2*Spot(\"ACME\", \"2026-01-01\");", "Multiply@0(2@0, equity spot@2)"),
    ]);
}

#[test]
fn assignments_are_at_their_name() {
    assert_places(&[
        ("x = 1;", "Assign@0(x@0, 1@4)"),
        ("x += 1;", "Assign@0(x@0, Add@0(x@0, 1@5))"),
        ("x -= 1;", "Assign@0(x@0, Subtract@0(x@0, 1@5))"),
        ("x *= (a)+b;", "Assign@0(x@0, Multiply@0(x@0, Add@5(a@6, b@9)))"),
        ("x /= -a;", "Assign@0(x@0, Divide@0(x@0, UnaryMinus@5(a@6)))"),
        ("x = x + 1;", "Assign@0(x@0, Add@4(x@4, 1@8))"),
    ]);
}

#[test]
fn pays_is_at_its_word() {
    assert_places(&[
        ("pays;", "Pays@0"),
        ("pays a (b);", "Pays@0(a@5, b@8)"),
        ("x pays 1;", "Assign@0(x@0, Add@0(x@0, Pays@2(1@7)))"),
        ("x pays", "Assign@0(x@0, Add@0(x@0, Pays@2))"),
        ("x = 1 + pays 2;", "Assign@0(x@0, Add@4(1@4, Pays@8(2@13)))"),
        ("pays 1 on \"2026-06-30\" in \"CHF\";", "Pays@0(1@5)"),
    ]);
}

#[test]
fn if_and_for_are_at_their_word_and_bodies_count_from_the_whole_statement() {
    assert_places(&[
        ("if a { }", "If@0(a@3)"),
        ("if (a) { b; } else { x += 1; }", "If@0(a@4, b@9, Assign@21(x@21, Add@21(x@21, 1@26)))"),
        ("for i in [1] { x; }", "ForEach@0(List@9(1@10), x@15)"),
        ("if a { for i in b { pays i; } }", "If@0(a@3, ForEach@7(b@16, Pays@20(i@25)))"),
    ]);
}

#[test]
fn blanks_and_comments_are_no_tokens() {
    assert_places(&[(" # c\n ( # (\n a\n + b ) * c;", "Multiply@0(Add@7(a@7, b@12), c@18)")]);
}

#[test]
fn places_are_told_by_byte_line_and_column() {
    let note = note("\"é\";\n# é\n\"é\" + (x\n* y);");
    let statement = note.statements().nth(1).unwrap();
    let positions: Vec<Position> = statement.records().map(|record| statement.position_of(record).unwrap()).collect();
    let position = |byte, line, column| Position { byte, line, column };
    let expected = [(11, 3, 1), (19, 3, 8), (23, 4, 3), (19, 3, 8), (11, 3, 1)];
    assert_eq!(positions, expected.map(|(byte, line, column)| position(byte, line, column)));
    for found in positions {
        assert_eq!(note.position(found.byte), Some(found));
        assert_eq!(note.position_at(found.line, found.column), Some(found));
    }
}

#[test]
fn positions_end_with_the_script() {
    let note = note("x;\n\"é\";");
    let position = |byte, line, column| Some(Position { byte, line, column });
    // the line feed, and the end, are the last of their lines
    assert_eq!((note.position(2), note.position_at(1, 3)), (position(2, 1, 3), position(2, 1, 3)));
    assert_eq!((note.position(8), note.position_at(2, 5)), (position(8, 2, 5), position(8, 2, 5)));
    assert_eq!((note.position(9), note.position(u32::MAX)), (None, None));
    for (line, column) in [(0, 1), (1, 0), (1, 4), (2, 6), (3, 1), (u32::MAX, 1), (1, u32::MAX)] {
        assert_eq!(note.position_at(line, column), None, "{line}:{column}");
    }
    // a byte inside of a character has the column behind it, where the next one begins
    assert_eq!(note.position(5), position(5, 2, 3));
    assert_eq!(note.position_at(2, 3), position(6, 2, 3));
}

#[test]
fn positions_are_counted_as_refusals_count_them() {
    for before in
        [&b""[..], b"x;\n", "\"é日\";\t".as_bytes(), "# é\n\n\"e\u{301}\"; ".as_bytes(), b"\"\x80\xBF\xC0\xFF\";\r"]
    {
        let Refusal { byte, line, column, .. } = Note::read(&[before, b"$"].concat(), Edition::One, LISTS).unwrap_err();
        let note = Note::read(before, Edition::One, LISTS).unwrap();
        assert_eq!(note.position(byte), Some(Position { byte, line, column }), "{}", String::from_utf8_lossy(before));
    }
}

#[test]
fn a_record_of_other_words_may_be_placed_outside() {
    let note = note("x; y;");
    let statement = note.statements().nth(1).unwrap();
    let record = |place| Record::from_words([1, 1, 0, 0, 1, 0, 0, place]);
    assert_eq!(statement.position_of(record(1)), note.position(4));
    assert_eq!(statement.position_of(record(3)), None);
    assert_eq!(statement.position_of(record(u32::MAX)), None);
}

#[test]
fn an_amendment_leaves_the_places_of_the_other_statements() {
    let mut note = note("(a)*b;\n+c[0];\nx pays 1;");
    let before: Vec<u32> = note.statements().flat_map(|statement| statement.records()).map(Record::place).collect();
    note.amend(1, b"# longer\n +c[0];\n").unwrap();
    let after: Vec<u32> = note.statements().flat_map(|statement| statement.records()).map(Record::place).collect();
    assert_eq!(before, after);
    assert_as_read(&note);
}
