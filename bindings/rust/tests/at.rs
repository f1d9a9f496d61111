//! `desk at`: from a place of a script to the nodes that have it.

mod common;

use common::desk::{says, Answer, Folder};

/// What is told of the byte `at` of a script, without the name and the place before it: the first line.
fn told(folder: &Folder, script: &str, at: usize) -> String {
    told_in("1", folder, script, at)
}

/// The same in an edition.
fn told_in(edition: &str, folder: &Folder, script: &str, at: usize) -> String {
    let answer = folder.desk_on(&["at", "-", &at.to_string(), "--edition", edition], script.as_bytes());
    assert_eq!((answer.status, answer.complained.as_str()), (0, ""), "{script}, {at}");
    let first = answer.said.lines().next().unwrap();
    let (_, told) = first.split_once(&format!("byte {at}: ")).unwrap();
    told.to_owned()
}

/// The kind of the innermost node at each byte of a script that has one statement; a run of one kind once, in order.
fn kinds(edition: &str, folder: &Folder, script: &str) -> String {
    let kind = |at| told_in(edition, folder, script, at).split(',').next().unwrap().to_owned();
    let mut kinds: Vec<String> = (0..script.len()).map(kind).collect();
    kinds.dedup();
    kinds.join(" ")
}

#[test]
fn the_innermost_node_is_named_with_those_round_it() {
    let folder = Folder::new("the_innermost_node_is_named_with_those_round_it");
    folder.put("note", b"# c\nif a {\n    x = (b + 10) * c;\n}\n");
    let expected = "note: line 3, column 12, byte 22: Add, bytes 20..26, of statement 0
  3 |     x = (b + 10) * c;
    |            ^
   4  If
  15    Assign
  19      Multiply
  20        Add
";
    assert_eq!(folder.desk(&["at", "note", "22"]), says(0, expected));
    assert_eq!(folder.desk(&["at", "note", "3:12"]), says(0, expected));
}

#[test]
fn each_byte_is_of_the_smallest_text_that_has_it() {
    let folder = Folder::new("each_byte_is_of_the_smallest_text_that_has_it");
    let cases = [
        // signs are their node's; so are parentheses round a part, and the `;`
        ("(a+b)*c;", "Multiply Variable Add Variable Multiply Variable Multiply"),
        ("a+(b*c);", "Variable Add Variable Multiply Variable Add"),
        ("-(a)**2;", "UnaryMinus Variable UnaryMinus Pow Constant Pow"),
        ("-1+a;", "Constant Add Variable Add"),
        ("(a);", "Variable"),
        ("a[0].mean();", "Variable Index Constant Index Mean"),
        ("min(a,b,);", "Min Variable Min Variable Min"),
        ("pow(a,b)**c;", "Pow Variable Pow Variable Pow Variable Pow"),
        ("x=Spot(\"EUR\",\"USD\")/2;", "Variable Assign Spot Divide Constant Assign"),
        ("[\"(\",[]];", "List String List"),
        ("pays a on \"2026-06-30\";", "Pays Variable Pays"),
        // blanks and comments between the tokens of a node are its own
        ("a # b\n + c;", "Variable Add Variable Add"),
        // the name of a compound assignment is a variable, its sign the sum's or other node's
        ("x += (e);", "Variable Add Variable Add Assign"),
        ("x -= 1;", "Variable Subtract Constant Assign"),
        ("x pays 1 in \"EUR\";", "Variable Add Pays Constant Pays Assign"),
        ("x = x + 1;", "Variable Assign Variable Add Constant Assign"),
        // a statement in a body has its `;`; the braces are the if's or for's
        ("if a{x=1;}else{}", "If Variable If Variable Assign Constant Assign If"),
        ("for i in b{i;pays;}", "ForEach Variable ForEach Variable Pays ForEach"),
    ];
    for (script, expected) in cases {
        assert_eq!(kinds("1", &folder, script), expected, "{script}");
    }
}

#[test]
fn signs_are_of_the_nodes_that_they_make_in_each_edition() {
    let folder = Folder::new("signs_are_of_the_nodes_that_they_make_in_each_edition");
    let cases = [
        ("1", "-2**2;", "Constant Pow Constant Pow"),
        ("2", "-2**2;", "UnaryMinus Constant Pow Constant UnaryMinus"),
        ("1", "-(a)**2;", "UnaryMinus Variable UnaryMinus Pow Constant Pow"),
        ("2", "-(a)**2;", "UnaryMinus Pow Variable Pow Constant UnaryMinus"),
        ("1", "a or b and c;", "Variable Or Variable And Variable And"),
        ("2", "a or b and c;", "Variable Or Variable And Variable Or"),
        ("2", "x\n= 1;", "Variable Assign Constant Assign"),
    ];
    for (edition, script, expected) in cases {
        assert_eq!(kinds(edition, &folder, script), expected, "edition {edition}, {script}");
    }
    assert_eq!(told_in("1", &folder, "2**3**4;", 1), "Pow, bytes 0..4, of statement 0");
    assert_eq!(told_in("2", &folder, "2**3**4;", 1), "Pow, bytes 0..8, of statement 0");
    assert_eq!(told_in("2", &folder, "2**3**4;", 4), "Pow, bytes 3..7, of statement 0");
}

#[test]
fn both_variables_of_a_compound_assignment_are_shown() {
    let folder = Folder::new("both_variables_of_a_compound_assignment_are_shown");
    let expected = "standard input: line 1, column 1, byte 0: Variable, bytes 0..2, of statement 0
  1 | xy += 1;
    | ^
  0  Assign
  0    Variable xy at 0..2
  0    Add
  0      Variable xy at 0..2
";
    assert_eq!(folder.desk_on(&["at", "-", "0"], b"xy += 1;"), says(0, expected));
}

#[test]
fn a_place_outside_of_statements_has_no_node() {
    let folder = Folder::new("a_place_outside_of_statements_has_no_node");
    let script = "# a\nx; # b\n\ny;\n";
    for at in [0, 3] {
        assert_eq!(told(&folder, script, at), "no node, before the first statement");
    }
    assert_eq!(told(&folder, script, 5), "Variable, bytes 4..6, of statement 0");
    for at in [6, 7, 10, 11] {
        assert_eq!(told(&folder, script, at), "no node, between the statements 0 and 1");
    }
    for at in [14, 15] {
        assert_eq!(told(&folder, script, at), "no node, behind the last statement");
    }
    for script in ["", "# a\n"] {
        assert_eq!(told(&folder, script, script.len()), "no node, there are no statements");
    }
    let answer = folder.desk_on(&["at", "-", "1:3"], b"x;\n");
    assert_eq!(
        answer,
        says(0, "standard input: line 1, column 3, byte 2: no node, behind the last statement\n  1 | x;\n    |   ^\n")
    );
}

#[test]
fn columns_are_characters() {
    let folder = Folder::new("columns_are_characters");
    folder.put("note", "\"Société\" + \"é\";".as_bytes());
    let expected = "note: line 1, column 11, byte 12: Add, bytes 0..19, of statement 0
  1 | \"Société\" + \"é\";
    |           ^
   0  Add
";
    assert_eq!(folder.desk(&["at", "note", "1:11"]), says(0, expected));
    // in the middle of a character, which is shown whole; its column is counted as that of any byte
    let expected = "note: line 1, column 7, byte 6: String, bytes 0..11, of statement 0
  1 | \"Société\" + \"é\";
    |      ^
   0  Add
   0    String \"Société\" at 1..10
";
    assert_eq!(folder.desk(&["at", "note", "6"]), says(0, expected));
    // bytes that are no characters are shown one by one
    folder.put("note", b"\"\x80\xBF\";");
    let answer = folder.desk(&["at", "note", "2"]);
    assert!(answer.said.contains("\n  1 | \"\u{FFFD}\u{FFFD}\";\n    |   ^\n"), "{}", answer.said);
}

#[test]
fn a_place_that_the_script_does_not_have_is_2() {
    let folder = Folder::new("a_place_that_the_script_does_not_have_is_2");
    folder.put("note", b"x;\ny;\0z;");
    let cases = [
        ("6", "the script of note ends at byte 5, before byte 6"),
        ("4294967295", "the script of note ends at byte 5, before byte 4294967295"),
        ("1:4", "the script of note has no line 1 with a column 4"),
        ("3:1", "the script of note has no line 3 with a column 1"),
        ("0:1", "the script of note has no line 0 with a column 1"),
        ("1:0", "the script of note has no line 1 with a column 0"),
    ];
    for (place, complaint) in cases {
        let complained = format!("desk: {complaint}\n");
        assert_eq!(folder.desk(&["at", "note", place]), Answer { status: 2, said: String::new(), complained });
    }
    assert_eq!(folder.desk(&["at", "note", "5"]).status, 0);
}

#[test]
fn a_refused_script_is_told_as_check_tells_it() {
    let folder = Folder::new("a_refused_script_is_told_as_check_tells_it");
    folder.put("note", b"x = ;");
    assert_eq!(folder.desk(&["at", "note", "0"]), folder.desk(&["check", "note"]));
    assert_eq!(folder.desk(&["at", "note", "99"]).status, 1);
}

#[test]
fn what_show_prints_leads_to_the_same_node() {
    let folder = Folder::new("what_show_prints_leads_to_the_same_node");
    let script = b"if a[0] >= -1 { x *= (b + 2) ** c; }\nfor i in [1, i] { z pays min(i, \"s\") in \"EUR\"; }";
    let shown = folder.desk_on(&["show", "-"], script).said;
    let mut nodes = 0;
    for line in shown.lines().filter(|line| line.trim_start().starts_with(|c: char| c.is_ascii_digit())) {
        let place = line.split_whitespace().next().unwrap();
        let answer = folder.desk_on(&["at", "-", place], script);
        assert!(answer.said.lines().any(|found| found == line), "{line}\n{}", answer.said);
        nodes += 1;
    }
    assert_eq!(nodes, 27);
}
