//! Reading and refusing, beside the Rust.
use crate::archive::{Archive, FIRST, LISTS};
use crate::full_lists::FullLists;
use crate::scripts::note;
use crate::timing::{medians, timed, Timed};
use calls::Lists;
use std::hint::black_box;

const KIB: usize = 1024;

/// A script that both sides read, and what both must find.
struct Case<'a> {
    name: String,
    script: String,
    lists: Lists<'a>,
    ground: u32,
}

pub fn tables(rounds: usize) {
    let lengths = [1, 2, 4, 8, 16].map(|kib| Case {
        name: format!("{kib} KiB"),
        script: note(kib * KIB),
        lists: LISTS,
        ground: 0,
    });
    println!("## Reading\n\nNotes of these lengths; every byte is read.\n");
    table(rounds, &lengths);
    println!("\n## Refusing, and full lists\n\nThe note of 16 KiB.\n");
    let full = FullLists::new();
    table(rounds, &others(&full));
}

fn others(full: &FullLists) -> Vec<Case<'_>> {
    let script = note(16 * KIB);
    let cut = &script[..script.len() - 1];
    let rest = note(16 * KIB - 1);
    let case = |name: &str, script: String, ground| Case {
        name: name.to_string(),
        script,
        lists: LISTS,
        ground,
    };
    vec![
        case("refused at the end, 8 (no `;`)", format!("{cut} "), 8),
        case("refused at the end, 3 (`$`)", format!("{cut}$"), 3),
        case("refused at the start, 8 (`)`)", format!("){rest}"), 8),
        case("refused at the start, 3 (`$`)", format!("${rest}"), 3),
        Case {
            lists: full.lists(),
            ..case("read with three lists of 256 names", script.clone(), 0)
        },
    ]
}

/// Both sides accept and count alike, or both refuse.
fn verify(case: &Case) {
    let mut archive = Archive::new(FIRST, &case.script);
    archive.read(&case.lists);
    assert_eq!(
        archive.answer[0], case.ground,
        "{}: {:?}",
        case.name, archive.answer
    );
    match oracle::read(&case.script) {
        Ok(root) => {
            let counted = [root.children().len(), oracle::nodes(&root) - 1];
            let answered = [5, 6].map(|k| archive.answer[k] as usize);
            assert_eq!(counted, answered, "{}", case.name);
        }
        Err(error) => assert_ne!(case.ground, 0, "{}: {error:?}", case.name),
    }
}

fn table(rounds: usize, cases: &[Case]) {
    let mut runs: Vec<Timed> = Vec::new();
    for case in cases {
        verify(case);
        runs.push(Box::new(|| timed(|| oracle::read(black_box(&case.script)))));
        let mut archive = Archive::new(FIRST, &case.script);
        runs.push(Box::new(move || {
            timed(|| archive.read(black_box(&case.lists)))
        }));
    }
    let times = medians(rounds, &mut runs);
    println!("| | the Rust, µs | the archive, µs | the Rust, ns a byte | the archive, ns a byte | times as fast |");
    println!("|---|---|---|---|---|---|");
    for (case, times) in cases.iter().zip(times.chunks_exact(2)) {
        let bytes = case.script.len() as f64;
        let (rust, archive) = (times[0], times[1]);
        println!(
            "| {} | {:.1} | {:.1} | {:.1} | {:.1} | {:.1} |",
            case.name,
            rust / 1000.0,
            archive / 1000.0,
            rust / bytes,
            archive / bytes,
            rust / archive
        );
    }
}
