//! The second edition beside the first, on scripts that both read.
use crate::archive::{Archive, LISTS};
use crate::scripts::{note, powers};
use crate::timing::{medians, timed, Timed};
use calls::EDITIONS;
use std::hint::black_box;

const KIB: usize = 1024;

pub fn table(rounds: usize) {
    let note_of = |kib: usize| (format!("read, the note of {kib} KiB"), note(kib * KIB));
    let chain_of = |operands: usize| {
        let name = format!("read, a chain of {operands} operands with `**`");
        (name, powers(operands))
    };
    let read = [1, 4, 16].map(note_of).into_iter();
    let read: Vec<(String, String)> = read.chain([10, 100, 1000].map(chain_of)).collect();
    let held = note(15 * KIB);
    let text = powers(100);
    println!("\n## The second edition\n\nBeside the first, in turn. A chain groups left in the first, right in the second.\n");
    println!("| | edition 1, µs | edition 2, µs | in hundredths of edition 1 |");
    println!("|---|---|---|---|");
    let mut runs: Vec<Timed> = Vec::new();
    for (_, script) in &read {
        runs.extend(EDITIONS.map(|edition| reading(edition, script)));
    }
    runs.extend(EDITIONS.map(|edition| amending(edition, &held, &text)));
    let times = medians(rounds, &mut runs);
    let names = read.iter().map(|(name, _)| name.as_str());
    let names = names.chain(["amended, a chain of 100 in a note of 15 KiB"]);
    for (name, times) in names.zip(times.chunks_exact(2)) {
        let (one, two) = (times[0], times[1]);
        println!(
            "| {name} | {:.2} | {:.2} | {:.1} |",
            one / 1000.0,
            two / 1000.0,
            100.0 * two / one
        );
    }
}

fn reading(edition: u32, script: &str) -> Timed<'static> {
    let mut archive = Archive::holding(edition, script, &LISTS);
    Box::new(move || timed(|| archive.read(black_box(&LISTS))))
}

/// The statement in the middle gives way to a text, and is put back.
fn amending<'a>(edition: u32, script: &str, text: &'a str) -> Timed<'a> {
    let mut archive = Archive::holding(edition, script, &LISTS);
    let middle = archive.answer[5] / 2;
    let old = archive.statement(middle as usize);
    Box::new(move || {
        let took = timed(|| archive.amend(middle, black_box(text), &LISTS));
        assert_eq!(archive.answer[0], 0, "the text is accepted");
        archive.amend(middle, &old, &LISTS);
        assert_eq!(archive.answer[0], 0, "the text is taken back");
        took
    })
}
