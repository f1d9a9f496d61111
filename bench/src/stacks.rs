//! The most stack that scripts of depth 32 need.
use crate::archive::{Archive, LISTS};
use crate::scripts::{deepest, note, raised};
use crate::stack::used_by;
use calls::{EDITIONS, MOST_BYTES};

pub fn table() {
    println!("\n## Stack\n\nBytes, by the mark on a painted stack; 32 of each in one another.\n");
    println!("| | the Rust | `script_read` | `script_amend` | `script_read`, edition 2 | `script_amend`, edition 2 |");
    println!("|---|---|---|---|---|---|");
    for (name, script) in deepest().into_iter().chain(raised()) {
        let [one, two] = EDITIONS.map(|edition| (read(edition, &script), amend(edition, &script)));
        println!(
            "| {name} | {} | {} | {} | {} | {} |",
            rust(&script),
            one.0,
            one.1,
            two.0,
            two.1
        );
    }
    let script = note(MOST_BYTES);
    let [one, two] = EDITIONS.map(|edition| read(edition, &script));
    println!(
        "| the note of 16 KiB | {} | {one} | | {two} | |",
        rust(&script)
    );
}

/// The tree is dropped elsewhere.
fn rust(script: &str) -> usize {
    let mut tree = None;
    let used = used_by(|| tree = Some(oracle::read(script)));
    assert!(tree.is_some_and(|tree| tree.is_ok()), "the Rust accepts");
    used
}

fn read(edition: u32, script: &str) -> usize {
    let mut archive = Archive::new(edition, script);
    let used = used_by(|| archive.read(&LISTS));
    assert_eq!(archive.answer[0], 0, "the archive accepts");
    used
}

fn amend(edition: u32, text: &str) -> usize {
    let mut archive = Archive::holding(edition, "x; y;", &LISTS);
    let used = used_by(|| archive.amend(1, text, &LISTS));
    assert_eq!(archive.answer[0], 0, "the archive accepts the amendment");
    used
}
