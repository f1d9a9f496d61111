//! Scripts read through the bindings: how they group, and why and where they are refused.

mod common;

use common::{note, refusal, tree_of, LISTS};
use gorembiin::{Counts, Date, Edition, Fields, Ground, Kind, Lists, Note, Place, Record, Refusal};

#[test]
fn powers_group_left_and_a_minus_belongs_to_its_number() {
    assert_eq!(tree_of("x = -2**2;"), "Assign(x, Pow(-2, 2))");
    assert_eq!(tree_of("x = 2**3**2;"), "Assign(x, Pow(Pow(2, 3), 2))");
    assert_eq!(tree_of("x = -(2)**2;"), "Assign(x, Pow(UnaryMinus(2), 2))");
}

#[test]
fn and_and_or_are_one_level() {
    assert_eq!(tree_of("x = a or b and c;"), "Assign(x, And(Or(a, b), c))");
}

#[test]
fn parentheses_are_not_indexed() {
    assert_eq!(tree_of("pays (a)[0];"), "Pays(a, List(0))");
    assert_eq!(tree_of("pays a[0];"), "Pays(Index(a, 0))");
}

#[test]
fn a_compound_assignment_names_its_variable_twice() {
    assert_eq!(tree_of("x += 1;"), "Assign(x, Add(x, 1))");
    assert_eq!(tree_of("x pays;"), "Assign(x, Add(x, Pays))");
}

#[test]
fn a_tree_as_deep_as_the_records_allow_is_walked() {
    let script = format!("x = 1{};", "+1".repeat(1022));
    let note = note(&script);
    let statement = note.statements().next().unwrap();
    assert_eq!(statement.records().len(), 2047);
    assert_eq!(statement.tree().count(), 2047);
    assert_eq!(statement.tree().map(|branch| branch.depth).max(), Some(1023));
}

#[test]
fn fields_have_names() {
    let note = note(r#"if x { pays 1 on "2026-06-30" in "CHF"; } else { } y = -1.50;"#);
    let fields: Vec<Fields> = note.statements().flat_map(|statement| statement.records()).map(Record::fields).collect();
    let date = Date::new(2026, 6, 30).unwrap();
    assert!(fields.contains(&Fields::Pays { date: Some(date), currency: Some(2) }));
    assert!(fields.contains(&Fields::If { first_else: Some(2) }));
    let literal = Place { start: 5, length: 4 };
    assert!(fields.contains(&Fields::Constant { value: -1.5, literal }));
    assert_eq!(date.to_string(), "2026-06-30");
}

#[test]
fn words_that_no_reading_wrote_have_no_kind() {
    assert_eq!(Record::from_words([0; 8]).kind(), None);
    assert_eq!(Record::from_words([40, 1, 0, 0, 0, 0, 0, 0]).kind(), None);
    assert_eq!(Record::from_words([39, 1, 0, 0, 0, 0, 0, 0]).kind(), Some(Kind::ForEach));
}

#[test]
fn refusals_have_their_ground_and_place() {
    let cases = [
        ("x = 1;\ny = $;", refusal(Ground::Character, 11, 2, 5)),
        ("x = \"a;", refusal(Ground::OpenString, 4, 1, 5)),
        ("x = 1.2.3;", refusal(Ground::NumberMalformed, 4, 1, 5)),
        ("x = 9007199254740993;", refusal(Ground::NumberTooLong, 4, 1, 5)),
        ("x\n= 1;", refusal(Ground::Token, 2, 2, 1)),
        ("x = 1", refusal(Ground::Token, 5, 1, 6)),
        ("x = a == b == c;", refusal(Ground::Token, 11, 1, 12)),
        ("ln = 1;", refusal(Ground::Reserved, 0, 1, 1)),
        ("x = pow(1);", refusal(Ground::Arguments, 4, 1, 5)),
        ("x = Df(\"2026-02-29\");", refusal(Ground::Date, 7, 1, 8)),
        ("pays 1 in \"GBP\";", refusal(Ground::Currency, 10, 1, 11)),
        ("x = cvg(\"2026-01-01\", \"2026-01-02\", \"n\");", refusal(Ground::DayCounter, 4, 1, 5)),
        ("x = cvg(1, 2, 3);", refusal(Ground::CvgArgument, 4, 1, 5)),
    ];
    for (script, expected) in cases {
        assert_eq!(Note::read(script.as_bytes(), Edition::One, LISTS).unwrap_err(), expected, "{script}");
    }
}

#[test]
fn columns_count_characters() {
    let cases: [(&[u8], Refusal); 6] = [
        ("\"éè\"$".as_bytes(), refusal(Ground::Character, 6, 1, 5)),
        ("# Crédit\n\"日本\" ) ;".as_bytes(), refusal(Ground::Token, 19, 2, 6)),
        ("x = \"é\"".as_bytes(), refusal(Ground::Token, 8, 1, 8)),
        // bytes are judged one by one: continuation bytes count nowhere, and the first bytes of characters do
        (b"\x80", refusal(Ground::Character, 0, 1, 1)),
        (b"\"\x80\xBF\"$", refusal(Ground::Character, 4, 1, 3)),
        (b"\"\x7F\xC0\xFF\"$", refusal(Ground::Character, 5, 1, 6)),
    ];
    for (script, expected) in cases {
        assert_eq!(
            Note::read(script, Edition::One, LISTS).unwrap_err(),
            expected,
            "{}",
            String::from_utf8_lossy(script)
        );
        // the place in a new text is told likewise, whatever stands before the statement in the script
        let mut note = note("\"é\"; a;");
        assert_eq!(note.amend(1, script).unwrap_err(), expected, "{}", String::from_utf8_lossy(script));
    }
}

#[test]
fn refusals_at_the_limits() {
    let long = vec![b' '; 16_385];
    assert_eq!(Note::read(&long[..16_384], Edition::One, LISTS).unwrap().counts().bytes, 16_384);
    assert_eq!(Note::read(&long, Edition::One, LISTS).unwrap_err(), refusal(Ground::TooLong, 0, 1, 1));

    let signs = vec![b';'; 4_097];
    assert_eq!(Note::read(&signs, Edition::One, LISTS).unwrap_err().ground, Ground::TooManyTokens);

    let nested = |depth: usize| format!("x = {}1{};", "(".repeat(depth), ")".repeat(depth));
    assert!(Note::read(nested(32).as_bytes(), Edition::One, LISTS).is_ok());
    assert_eq!(
        Note::read(nested(33).as_bytes(), Edition::One, LISTS).unwrap_err(),
        refusal(Ground::TooDeep, 36, 1, 37)
    );

    assert_eq!(note(&"x;".repeat(512)).counts().statements, 512);
    assert_eq!(
        Note::read("x;".repeat(513).as_bytes(), Edition::One, LISTS).unwrap_err(),
        refusal(Ground::NoRoom, 1026, 1, 1027)
    );
}

#[test]
fn a_malformed_list_is_refused() {
    for currencies in [&b""[..], b"USD", b"EUR\n", b"USD\nUSD\n", b"USD\neur\n"] {
        let lists = Lists { currencies, ..LISTS };
        assert_eq!(Note::read(b"", Edition::One, lists).unwrap_err(), refusal(Ground::List, 0, 1, 1));
    }
}

#[test]
fn a_zero_byte_ends_a_script() {
    let note = Note::read(b"x = 1;\0y = ", Edition::One, LISTS).unwrap();
    assert_eq!(note.script(), b"x = 1;");
    assert_eq!(note.counts(), Counts { bytes: 6, statements: 1, records: 3, tokens: 4, latest: 0, edition: 1 });
}

#[test]
fn statements_are_where_the_directory_says() {
    let note = note("# c\nx = 1 ; # d\n y pays\n;");
    let found: Vec<(u32, u32, u32, &[u8])> = note
        .statements()
        .map(|statement| (statement.number(), statement.start(), statement.tokens(), statement.text()))
        .collect();
    assert_eq!(found, [(0, 4, 4, &b"x = 1 ;"[..]), (1, 17, 3, b"y pays\n;")]);
}

#[test]
fn refusals_are_told_in_words() {
    let told = |script: &[u8]| Note::read(script, Edition::One, LISTS).unwrap_err().to_string();
    assert_eq!(told(b"x =\n$"), "line 2, column 1: No token begins with this character. (ground 3)");
    assert!(told(&[b' '; 16_385]).starts_with("The text is longer"));
}
