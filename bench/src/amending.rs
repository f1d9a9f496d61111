//! Amending one statement, beside the Rust reading the whole new script.
use crate::archive::{Archive, FIRST, LISTS};
use crate::full_lists::FullLists;
use crate::scripts::{note, short_statements};
use crate::timing::{medians, timed, Timed};
use calls::{Lists, MOST_BYTES};
use std::hint::black_box;

/// Bytes that the note leaves for statements to grow.
const SPARE: usize = 64;

/// Amendments that follow each other in the measurement of warm caches.
const WARM: usize = 16;

/// A statement of a script that is replaced, and by what.
struct Case<'a> {
    name: String,
    script: String,
    statement: u32,
    old: String,
    new: String,
    lists: Lists<'a>,
}

pub fn tables(rounds: usize) {
    let script = note(MOST_BYTES - SPARE);
    println!("\n## Amending\n");
    println!(
        "A note of {} bytes. The Rust reads the whole new script. In turn: one amendment behind a",
        script.len()
    );
    println!("reading by the Rust, whose data is in the caches. Warm: {WARM} amendments behind each other.\n");
    table(rounds, &in_a_note(&script, &FullLists::new()));
    println!("\n## Amending among many statements\n");
    println!("Notes of statements of 24 bytes, each with a date. One is replaced by another of the same length;");
    println!("each entry of the directory is looked at.\n");
    table(rounds, &among_many());
}

fn table(rounds: usize, cases: &[Case]) {
    let mut runs: Vec<Timed> = Vec::new();
    for case in cases {
        let amended = verify(case);
        runs.push(Box::new(move || {
            timed(|| oracle::read(black_box(&amended)))
        }));
        let mut archive = Archive::holding(FIRST, &case.script, &case.lists);
        runs.push(Box::new(move || there_and_back(&mut archive, case)));
        let mut archive = Archive::holding(FIRST, &case.script, &case.lists);
        runs.push(Box::new(move || {
            (0..WARM)
                .map(|_| there_and_back(&mut archive, case))
                .sum::<f64>()
                / WARM as f64
        }));
    }
    print(cases, &medians(rounds, &mut runs));
}

/// First, middle and last statement, with the same length and longer.
fn in_a_note<'a>(script: &str, full: &'a FullLists) -> Vec<Case<'a>> {
    let archive = Archive::holding(FIRST, script, &LISTS);
    let last = archive.answer[5] - 1;
    let mut cases = Vec::new();
    for (name, statement) in [("first", 0), ("middle", last / 2), ("last", last)] {
        let old = archive.statement(statement as usize);
        let bytes = old.len();
        let case = |change: &str, new: String, lists: Lists<'a>| Case {
            name: format!("{name} statement, {bytes} bytes, {change}"),
            script: script.to_string(),
            statement,
            old: old.clone(),
            new,
            lists,
        };
        cases.push(case("same length", same_length(&old), LISTS));
        cases.push(case("8 bytes longer", longer(&old), LISTS));
        if name == "middle" {
            let lists = full.lists();
            cases.push(case(
                "same length, lists of 256 names",
                same_length(&old),
                lists,
            ));
        }
    }
    cases
}

/// The first and the last of 32 to 512 statements. The last has the script's latest date, and where that goes, all entries are
/// asked for the latest of theirs.
fn among_many() -> Vec<Case<'static>> {
    let mut cases = Vec::new();
    for count in [32, 64, 128, 256, 512] {
        let script = short_statements(count);
        let archive = Archive::holding(FIRST, &script, &LISTS);
        let mut case = |name: String, statement: usize, change: fn(&str) -> String| {
            let old = archive.statement(statement);
            cases.push(Case {
                name,
                script: script.clone(),
                statement: statement as u32,
                new: change(&old),
                old,
                lists: LISTS,
            });
        };
        let last = count - 1;
        case(format!("first of {count} statements"), 0, same_length);
        case(format!("last of {count} statements"), last, same_length);
        case(
            format!("last of {count} statements, the latest date goes"),
            last,
            long_ago,
        );
    }
    cases
}

/// The same statement a thousand years before.
fn long_ago(old: &str) -> String {
    old.replacen("\"2", "\"1", 1)
}

/// Another statement of the same length: its last digit or letter is another.
fn same_length(old: &str) -> String {
    let at = old
        .rfind(|c: char| c.is_ascii_alphanumeric())
        .expect("a statement has a letter");
    let other = if old.as_bytes()[at].is_ascii_digit() {
        "7"
    } else {
        "q"
    };
    let mut new = old.to_string();
    new.replace_range(at..=at, other);
    new
}

/// The same statement with one more operand.
fn longer(old: &str) -> String {
    let at = old.rfind(';').expect("a statement has a `;`");
    let mut new = old.to_string();
    new.insert_str(at, " + 1.125");
    new
}

/// Nanoseconds of one amendment; then the old statement is put back.
fn there_and_back(archive: &mut Archive, case: &Case) -> f64 {
    let took = timed(|| archive.amend(case.statement, black_box(&case.new), &case.lists));
    assert_eq!(archive.answer[0], 0, "{} is accepted", case.name);
    archive.amend(case.statement, &case.old, &case.lists);
    assert_eq!(archive.answer[0], 0, "{} is taken back", case.name);
    took
}

/// The amendment leaves what reading the new script leaves, and the Rust counts alike. Answers the new script.
fn verify(case: &Case) -> String {
    let mut archive = Archive::holding(FIRST, &case.script, &case.lists);
    archive.amend(case.statement, &case.new, &case.lists);
    assert_eq!(archive.answer[0], 0, "{}: {:?}", case.name, archive.answer);
    let amended = archive.text();
    assert!(amended != case.script, "{} changes the script", case.name);
    assert!(
        archive == Archive::holding(FIRST, &amended, &case.lists),
        "{} is as read",
        case.name
    );
    let root = oracle::read(&amended).expect("the Rust accepts the new script");
    let counted = [root.children().len(), oracle::nodes(&root) - 1];
    assert_eq!(
        counted,
        [5, 6].map(|k| archive.answer[k] as usize),
        "{}",
        case.name
    );
    amended
}

fn print(cases: &[Case], times: &[f64]) {
    println!("| | the Rust, µs | in turn, µs | warm, µs | times as fast, in turn | warm |");
    println!("|---|---|---|---|---|---|");
    for (case, times) in cases.iter().zip(times.chunks_exact(3)) {
        let (rust, turn, warm) = (times[0], times[1], times[2]);
        println!(
            "| {} | {:.1} | {:.2} | {:.2} | {:.0} | {:.0} |",
            case.name,
            rust / 1000.0,
            turn / 1000.0,
            warm / 1000.0,
            rust / turn,
            rust / warm
        );
    }
}
