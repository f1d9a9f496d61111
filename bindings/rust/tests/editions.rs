//! The two editions of the script language: what they read differently, what they share, and that there is no third.

mod common;

use std::thread;

use common::{assert_as_read, note_in, placed_tree, refusal, tree, tree_in, LISTS};
use gorembiin::{amend, read, Counts, Edition, Ground, Lists, Note, Refusal, ENTRY_WORDS, RECORDS, RECORD_WORDS};

fn refused(edition: Edition, script: &str) -> Refusal {
    Note::read(script.as_bytes(), edition, LISTS).unwrap_err()
}

/// The trees of a script, with the place of each node.
fn placed_in(edition: Edition, script: &str) -> String {
    let note = note_in(edition, script);
    let placed: Vec<String> = note.statements().map(|statement| placed_tree(&statement)).collect();
    placed.join(" and ")
}

/// An expression, and its tree in the first edition and in the second.
const READINGS: [(&str, &str, &str); 34] = [
    // `**` groups right
    ("2**3**2", "Pow(Pow(2, 3), 2)", "Pow(2, Pow(3, 2))"),
    ("a**b**c**d", "Pow(Pow(Pow(a, b), c), d)", "Pow(a, Pow(b, Pow(c, d)))"),
    ("(2**3)**2", "Pow(Pow(2, 3), 2)", "Pow(Pow(2, 3), 2)"),
    ("2**(3**2)", "Pow(2, Pow(3, 2))", "Pow(2, Pow(3, 2))"),
    ("a**b[0]**c", "Pow(Pow(a, Index(b, 0)), c)", "Pow(a, Pow(Index(b, 0), c))"),
    ("2**3*4**5", "Multiply(Pow(2, 3), Pow(4, 5))", "Multiply(Pow(2, 3), Pow(4, 5))"),
    ("2**3**2*4", "Multiply(Pow(Pow(2, 3), 2), 4)", "Multiply(Pow(2, Pow(3, 2)), 4)"),
    // a sign takes in the `**` after it
    ("-2**2", "Pow(-2, 2)", "UnaryMinus(Pow(2, 2))"),
    ("-a**b", "Pow(UnaryMinus(a), b)", "UnaryMinus(Pow(a, b))"),
    ("-(2)**2", "Pow(UnaryMinus(2), 2)", "UnaryMinus(Pow(2, 2))"),
    ("+2**2", "Pow(2, 2)", "Pow(2, 2)"),
    ("-2**3**2", "Pow(Pow(-2, 3), 2)", "UnaryMinus(Pow(2, Pow(3, 2)))"),
    ("--2**2", "Pow(UnaryMinus(-2), 2)", "UnaryMinus(UnaryMinus(Pow(2, 2)))"),
    ("-+2**2", "Pow(UnaryMinus(2), 2)", "UnaryMinus(Pow(2, 2))"),
    ("+-2**2", "Pow(-2, 2)", "UnaryMinus(Pow(2, 2))"),
    ("-2**2*3", "Multiply(Pow(-2, 2), 3)", "Multiply(UnaryMinus(Pow(2, 2)), 3)"),
    ("3*-2**2", "Multiply(3, Pow(-2, 2))", "Multiply(3, UnaryMinus(Pow(2, 2)))"),
    ("(-2)**2", "Pow(-2, 2)", "Pow(-2, 2)"),
    ("-2 # c\n**2", "Pow(-2, 2)", "UnaryMinus(Pow(2, 2))"),
    // the right side of `**` may begin with signs
    ("2**-3", "Pow(2, -3)", "Pow(2, -3)"),
    ("2**-3**2", "Pow(Pow(2, -3), 2)", "Pow(2, UnaryMinus(Pow(3, 2)))"),
    ("2**-3*4", "Multiply(Pow(2, -3), 4)", "Multiply(Pow(2, -3), 4)"),
    ("2**+3**2", "Pow(Pow(2, 3), 2)", "Pow(2, Pow(3, 2))"),
    ("2**-+-a**b", "Pow(Pow(2, UnaryMinus(UnaryMinus(a))), b)", "Pow(2, UnaryMinus(UnaryMinus(Pow(a, b))))"),
    // without a `**` behind it, a minus before a number makes a negated number
    ("-2*3", "Multiply(-2, 3)", "Multiply(-2, 3)"),
    ("--2", "UnaryMinus(-2)", "UnaryMinus(-2)"),
    ("-2", "-2", "-2"),
    ("-a*b", "Multiply(UnaryMinus(a), b)", "Multiply(UnaryMinus(a), b)"),
    // `and` binds tighter than `or`, and each groups left
    ("a or b and c", "And(Or(a, b), c)", "Or(a, And(b, c))"),
    ("a and b or c and d", "And(Or(And(a, b), c), d)", "Or(And(a, b), And(c, d))"),
    ("a or b or c", "Or(Or(a, b), c)", "Or(Or(a, b), c)"),
    ("a and b and c", "And(And(a, b), c)", "And(And(a, b), c)"),
    ("(a or b) and c", "And(Or(a, b), c)", "And(Or(a, b), c)"),
    ("a or b == c and d", "And(Or(a, Equal(b, c)), d)", "Or(a, And(Equal(b, c), d))"),
];

#[test]
fn each_edition_groups_in_its_own_way() {
    for (expression, one, two) in READINGS {
        for (edition, expected) in [(Edition::One, one), (Edition::Two, two)] {
            assert_eq!(tree_in(edition, &format!("{expression};")), expected, "{edition}, {expression}");
            let assigned = tree_in(edition, &format!("x = {expression};"));
            assert_eq!(assigned, format!("Assign(x, {expected})"), "{edition}, {expression}");
            // so in every place that has an expression
            let called = tree_in(edition, &format!("pays min({expression}, [{expression}])"));
            assert_eq!(called, format!("Pays(Min({expected}, List({expected})))"), "{edition}, {expression}");
        }
    }
}

#[test]
fn a_line_break_behind_a_name_means_nothing_in_the_second() {
    let cases = [
        ("x\n= 1;", 2, "Assign(x, 1)"),
        ("x\n\n# c\n= 1;", 7, "Assign(x, 1)"),
        ("x # c\n+= 1;", 6, "Assign(x, Add(x, 1))"),
        ("x\n/= 2;", 2, "Assign(x, Divide(x, 2))"),
        ("x # c\npays 1;", 6, "Assign(x, Add(x, Pays(1)))"),
        ("x\npays", 2, "Assign(x, Add(x, Pays))"),
        ("if a { x\n= 1; }", 9, "If(a, Assign(x, 1))"),
    ];
    for (script, byte, expected) in cases {
        let found = refused(Edition::One, script);
        assert_eq!((found.ground, found.byte), (Ground::Token, byte), "{script}");
        assert_eq!(tree_in(Edition::Two, script), expected, "{script}");
    }
    // elsewhere line breaks mean nothing in either
    for edition in [Edition::One, Edition::Two] {
        assert_eq!(tree_in(edition, "x\n+ 1\n;"), "Add(x, 1)");
        assert_eq!(tree_in(edition, "x =\n1\n;"), "Assign(x, 1)");
    }
}

#[test]
fn nodes_of_a_power_begin_where_their_left_parts_do() {
    let cases = [
        ("a**b**c;", "Pow@0(a@0, Pow@3(b@3, c@6))"),
        ("(a)**(b)**(c);", "Pow@0(a@1, Pow@5(b@6, c@11))"),
        ("-a**b;", "UnaryMinus@0(Pow@1(a@1, b@4))"),
        ("-(a)**b;", "UnaryMinus@0(Pow@1(a@2, b@6))"),
        ("2**-3**2;", "Pow@0(2@0, UnaryMinus@3(Pow@4(3@4, 2@7)))"),
        ("2**-3;", "Pow@0(2@0, -3@3)"),
        // a plus vanishes before the whole power, and before a product it is the product's
        ("+a**b;", "Pow@1(a@1, b@4)"),
        ("+a**b*c;", "Multiply@0(Pow@1(a@1, b@4), c@6)"),
        ("2**+a**b;", "Pow@0(2@0, Pow@4(a@4, b@7))"),
        ("a**(+b)**c;", "Pow@0(a@0, Pow@3(b@5, c@9))"),
        ("a or b and c;", "Or@0(a@0, And@5(b@5, c@11))"),
        ("(a) or (b) and c;", "Or@0(a@1, And@7(b@8, c@15))"),
        ("x\n+= a**b**c;", "Assign@0(x@0, Add@0(x@0, Pow@5(a@5, Pow@8(b@8, c@11))))"),
    ];
    for (script, expected) in cases {
        assert_eq!(placed_in(Edition::Two, script), expected, "{script}");
    }
    // in the first edition the plus is the left part's
    assert_eq!(placed_in(Edition::One, "+a**b;"), "Pow@0(a@1, b@4)");
}

#[test]
fn both_are_refused_alike_where_they_do_not_differ() {
    let cases = [
        ("x = a == b == c;", refusal(Ground::Token, 11, 1, 12)),
        ("x = a ** ;", refusal(Ground::Token, 9, 1, 10)),
        ("x = ** a;", refusal(Ground::Token, 4, 1, 5)),
        ("x = a and or b;", refusal(Ground::Token, 10, 1, 11)),
        ("x = 1", refusal(Ground::Token, 5, 1, 6)),
        ("x = -ln;", refusal(Ground::Token, 7, 1, 8)),
        ("x = a ** Df(\"2026-02-29\");", refusal(Ground::Date, 12, 1, 13)),
        ("x = 1 $", refusal(Ground::Character, 6, 1, 7)),
    ];
    for (script, expected) in cases {
        for edition in [Edition::One, Edition::Two] {
            assert_eq!(refused(edition, script), expected, "{edition}, {script}");
        }
    }
}

/// An expression in so many parentheses.
fn nested(depth: usize, inner: &str) -> String {
    format!("{}{inner}{};", "(".repeat(depth), ")".repeat(depth))
}

#[test]
fn a_minus_counts_for_depth_unless_it_makes_a_negated_number() {
    let cases = [
        // within so many parentheses; refused at this byte in the first edition, and in the second
        (32, "-2", None, None),
        (32, "2**-2", None, None),
        (32, "2**3**2", None, None),
        (32, "-2**2", None, Some(32)),
        (32, "-2\n**2", None, Some(32)),
        (31, "-2**2", None, None),
        (32, "2**-3**2", None, Some(35)),
        (32, "--2", Some(32), Some(32)),
        (31, "--2", None, None),
        (31, "--2**2", None, Some(32)),
        (32, "-a", Some(32), Some(32)),
        (32, "+2", Some(32), Some(32)),
    ];
    for (depth, inner, one, two) in cases {
        for (edition, expected) in [(Edition::One, one), (Edition::Two, two)] {
            let found = Note::read(nested(depth, inner).as_bytes(), edition, LISTS).err();
            // the line is that of the minus
            let expected = expected.map(|byte| refusal(Ground::TooDeep, byte, 1, byte + 1));
            assert_eq!(found, expected, "{edition}, {inner} in {depth} parentheses");
        }
    }
    let signs = |count: usize| format!("{}a;", "2**-".repeat(count));
    assert!(Note::read(signs(32).as_bytes(), Edition::Two, LISTS).is_ok());
    assert_eq!(refused(Edition::Two, &signs(33)), refusal(Ground::TooDeep, 131, 1, 132));
    // in the first edition they stand beside each other
    assert!(Note::read(signs(33).as_bytes(), Edition::One, LISTS).is_ok());
}

/// So many operands with `**` between them.
fn chain(operands: usize) -> String {
    format!("{}2;", "2**".repeat(operands - 1))
}

/// Runs on a stack on which nothing could go down by a step for each of a thousand operands.
fn on_a_small_stack(run: impl FnOnce() + Send) {
    thread::scope(|scope| {
        let small = thread::Builder::new().stack_size(128 << 10);
        small.spawn_scoped(scope, run).unwrap().join().unwrap();
    });
}

#[test]
fn a_chain_of_powers_is_as_long_as_the_records_allow() {
    on_a_small_stack(|| {
        for operands in [1000, 1024] {
            let note = note_in(Edition::Two, &chain(operands));
            let statement = note.statements().next().unwrap();
            assert_eq!(note.counts().records as usize, 2 * operands - 1);
            // a Pow and its left part begin at the same operand, and then comes the Pow of the next
            for (branch, number) in statement.tree().zip(0_usize..) {
                assert_eq!((branch.record.place() as usize, branch.depth), (number / 2 * 3, number.div_ceil(2)));
            }
        }
        for operands in [1025, 2000] {
            let end = 3 * operands as u32 - 1;
            assert_eq!(refused(Edition::Two, &chain(operands)), refusal(Ground::NoRoom, end, 1, end + 1));
        }
    });
}

#[test]
fn a_chain_that_a_lent_slice_has_no_room_for_is_refused_and_nothing_is_written() {
    on_a_small_stack(|| {
        let script = chain(1000);
        let (old, mut directory) = (0xA5A5_A5A5, [0; ENTRY_WORDS]);
        for missing in [1, RECORD_WORDS, 1000 * RECORD_WORDS, 1999 * RECORD_WORDS] {
            let mut records = vec![old; 1999 * RECORD_WORDS - missing];
            let answer = read(script.as_bytes(), 2, &LISTS, &mut records, &mut directory);
            assert_eq!(answer.unwrap_err().ground, Ground::NoRoom);
            assert!(records.iter().all(|&word| word == old));
        }
        let mut records = vec![old; 1999 * RECORD_WORDS];
        assert_eq!(read(script.as_bytes(), 2, &LISTS, &mut records, &mut directory).unwrap().records, 1999);
    });
}

/// Each text replaces each statement of each script that arises, twice over.
const TEXTS: [&str; 6] = [
    "",
    "a = -2**3**2;",
    "x\n= a or b and c;\n",
    "p\npays 2**-3**2 on \"2026-06-30\"; # c\n",
    "if a { x\n+= 1; }",
    "x;",
];

/// Amends `note` with every text at every statement, and goes on from each result.
fn amend_all(note: &Note, turns: u32) {
    for statement in 0..note.counts().statements {
        for text in TEXTS {
            let mut amended = note.clone();
            amended.amend(statement, text.as_bytes()).unwrap();
            assert_eq!((amended.edition(), amended.counts().edition), (Edition::Two, 2));
            assert_as_read(&amended);
            if turns > 1 {
                amend_all(&amended, turns - 1);
            }
        }
    }
}

#[test]
fn an_amended_note_is_as_if_read_anew_in_its_edition() {
    amend_all(
        &note_in(Edition::Two, "# head\nx\n= 2**3**2;\n\nif x { y = -2**2; } # tail\nz\npays x or y and 1;\n"),
        2,
    );
}

#[test]
fn a_text_is_read_in_the_edition_of_its_note() {
    for (expression, one, two) in READINGS {
        for (edition, expected) in [(Edition::One, one), (Edition::Two, two)] {
            let mut note = note_in(edition, "a;\nb;\nc;");
            note.amend(1, format!("{expression};").as_bytes()).unwrap();
            let trees: Vec<String> = note.statements().map(|statement| tree(&statement)).collect();
            assert_eq!(trees, ["a", expected, "c"], "{edition}, {expression}");
        }
    }
    let mut first = note_in(Edition::One, "x;");
    assert_eq!(first.amend(0, b"x\n= 1;"), Err(refusal(Ground::Token, 2, 2, 1)));
    let mut second = note_in(Edition::Two, "x;");
    assert_eq!(second.amend(0, b"x\n= 1;"), Ok(()));
    assert_eq!(second.amend(0, b"x = ;"), Err(refusal(Ground::Token, 4, 1, 5)));
    assert_eq!((second.script(), second.edition()), (&b"x\n= 1;"[..], Edition::Two));
}

#[test]
fn an_amendment_takes_no_longer_chain_than_a_reading() {
    on_a_small_stack(|| {
        let mut note = note_in(Edition::Two, "x; y; z;");
        note.amend(1, chain(1000).as_bytes()).unwrap();
        assert_as_read(&note);
        let before = note.counts();
        for (statement, operands) in [(0, 1000), (1, 2000)] {
            assert_eq!(note.amend(statement, chain(operands).as_bytes()).unwrap_err().ground, Ground::NoRoom);
            assert_eq!(note.counts(), before);
        }
        note.amend(1, b"y;").unwrap();
        assert_eq!(note.counts(), note_in(Edition::Two, "x; y; z;").counts());
    });
}

/// Numbers that are no edition's.
const NO_EDITIONS: [u32; 4] = [0, 3, 26, u32::MAX];

fn no_edition<T>() -> Result<T, Refusal> {
    Err(refusal(Ground::NoEdition, 0, 1, 1))
}

#[test]
fn no_other_edition_is_read_whatever_else_is_wrong() {
    let bad = Lists { currencies: b"EUR\n", ..LISTS };
    let long = [b' '; 16_385];
    for edition in NO_EDITIONS {
        for script in [&b"x = 1;"[..], b"", &long, b"$", b"\"", b"1.2.3", &[b';'; 4_097], b"x = ;", &b"x;".repeat(513)]
        {
            for lists in [&LISTS, &bad] {
                let (mut records, mut directory) = ([7; 3 * RECORD_WORDS], [9; ENTRY_WORDS]);
                assert_eq!(read(script, edition, lists, &mut records, &mut directory), no_edition(), "{edition}");
                assert_eq!((records, directory), ([7; 3 * RECORD_WORDS], [9; ENTRY_WORDS]));
                assert_eq!(read(script, edition, lists, &mut [], &mut []), no_edition(), "{edition}");
            }
        }
    }
}

#[test]
fn no_other_edition_is_amended_whatever_else_is_wrong() {
    let bad = Lists { currencies: b"EUR\n", ..LISTS };
    let script = *b"x = 1;";
    let (mut records, mut directory) = ([0; 3 * RECORD_WORDS], [0; ENTRY_WORDS]);
    let good = read(&script, 2, &LISTS, &mut records, &mut directory).unwrap();
    let before = (script, records, directory);
    for edition in NO_EDITIONS {
        // a state as it was read, and states that no reading left
        for held in [good, Counts { records: 2, ..good }, Counts { latest: 1, ..good }, Counts::default()] {
            for (statement, text) in
                [(0, &b"x;"[..]), (1, b"x;"), (0, b"\0"), (0, b"$"), (0, b"x"), (u32::MAX, &[b' '; 16_385])]
            {
                for lists in [&LISTS, &bad] {
                    let (mut script, mut records, mut directory) = before;
                    let held = Counts { edition, ..held };
                    let answer = amend(&mut script, held, statement, text, lists, &mut records, &mut directory);
                    assert_eq!(answer, no_edition(), "{held:?}");
                    assert_eq!((script, records, directory), before);
                }
            }
        }
    }
}

#[test]
fn behind_a_refused_reading_there_is_nothing_to_amend() {
    let (mut records, mut directory) = (vec![0; RECORDS * RECORD_WORDS], [0; ENTRY_WORDS]);
    let held = read(b"x = ;", 2, &LISTS, &mut records, &mut directory).unwrap_or_default();
    assert_eq!(held.edition, 0);
    let answer = amend(&mut [0; 16], held, 0, b"x;", &LISTS, &mut records, &mut directory);
    assert_eq!(answer, no_edition());
    // an empty script has an edition, and no statement
    let held = read(b"", 2, &LISTS, &mut records, &mut directory).unwrap();
    let answer = amend(&mut [0; 16], held, 0, b"x;", &LISTS, &mut records, &mut directory);
    assert_eq!((held.edition, answer.unwrap_err().ground), (2, Ground::NoStatement));
}

#[test]
fn a_state_in_the_other_edition_is_amended_in_that() {
    // the editions leave states of one form, and the library goes by the number that it is lent
    let (mut records, mut directory) = ([0; 4 * RECORD_WORDS], [0; ENTRY_WORDS]);
    let mut script = *b"x;\0\0\0\0";
    let held = read(&script, 1, &LISTS, &mut records, &mut directory).unwrap();
    let held = Counts { edition: 2, ..held };
    let counts = amend(&mut script, held, 0, b"-2**2;", &LISTS, &mut records, &mut directory).unwrap();
    assert_eq!((counts.edition, counts.records), (2, 4));
    let kinds: Vec<u32> = records.chunks(RECORD_WORDS).map(|words| words[0]).collect();
    assert_eq!(kinds, [2, 2, 12, 7]);
}
