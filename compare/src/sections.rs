//! The parts of a comparison, each with its share of the time.
use crate::alphabets::{ALPHABETS, OF_EDITIONS};
use crate::damage;
use crate::days;
use crate::generate;
use crate::limits;
use crate::lists;
use crate::lookups;
use crate::memory::Room;
use crate::near;
use crate::random::Random;
use crate::reading::{self, DEPTH};
use crate::runs;
use crate::sequences;
use crate::tally::{Section, Tally};
use crate::towers;
use calls::{EDITIONS, ENTRY, MOST_BYTES, MOST_TOKENS};
use std::process::ExitCode;
use std::time::{Duration, Instant};

/// Hundredths of the time.
const EACH_ALPHABET: u64 = 4;
const DAYS: u64 = 6;
const LISTS: u64 = 2;
const LOOKUPS: u64 = 1;
const OTHER_EDITIONS: u64 = 1;

/// The same of each edition.
const SCRIPTS: u64 = 9;
const DAMAGED: u64 = 6;
const TOWERS: u64 = 2;
const AMENDMENTS: u64 = 10;

pub fn all(seconds: u64, seed: u64) -> ExitCode {
    println!("{seconds} seconds, seed {seed}\n");
    let share = |hundredths: u64| Duration::from_millis(seconds * hundredths * 10);
    let mut tally = Tally::default();
    for alphabet in &ALPHABETS {
        tally.add(sequences::run(alphabet, 1, share(EACH_ALPHABET)));
    }
    for alphabet in OF_EDITIONS {
        tally.add(sequences::run(alphabet, 2, share(EACH_ALPHABET)));
    }
    tally.add(each("words near keywords", 1, near::scripts()));
    tally.add(days::run(share(DAYS)));
    for edition in EDITIONS {
        in_edition(edition, &mut tally, share, seed);
    }
    let mut add = |name: &str, hundredths, compare: fn(&mut Random, &mut Section)| {
        let section = Section::new(name);
        tally.add(random(section, share(hundredths), seed, compare));
    };
    add("other editions", OTHER_EDITIONS, other_edition);
    add("lists", LISTS, lists::compare);
    add("lookups", LOOKUPS, lookups::compare);
    tally.print();
    match tally.differ() {
        0 => ExitCode::SUCCESS,
        _ => ExitCode::FAILURE,
    }
}

/// The rows that each edition has.
fn in_edition(edition: u32, tally: &mut Tally, share: impl Fn(u64) -> Duration, seed: u64) {
    tally.add(each("scripts at the limits", edition, limits::scripts()));
    let mut add = |name: &str, hundredths, compare: fn(&mut Random, u32, &mut Section)| {
        let section = Section::in_edition(name, edition);
        tally.add(random(
            section,
            share(hundredths),
            seed,
            |random, section| {
                compare(random, edition, section);
            },
        ));
    };
    add("random scripts", SCRIPTS, |random, edition, section| {
        let script = generate::any(random, edition);
        section.compare(edition, &script, room(random));
    });
    add("damaged scripts", DAMAGED, |random, edition, section| {
        let script = damage::any(random, edition);
        section.compare(edition, &script, room(random));
    });
    add("depth 28 to 36", TOWERS, deep);
    add("amendments", AMENDMENTS, runs::compare);
}

/// Each of some scripts, in full room.
fn each(name: &str, edition: u32, scripts: impl IntoIterator<Item = String>) -> Section {
    let mut section = Section::in_edition(name, edition);
    for script in scripts {
        section.compare(edition, &script, Room::FULL);
    }
    section
}

/// A number that is no edition's, with a script that may have any fault.
fn other_edition(random: &mut Random, section: &mut Section) {
    let edition = [0, 3, 26, 257, u32::MAX - 1, u32::MAX][random.below(6)];
    let script = match random.below(4) {
        0 => " ".repeat(MOST_BYTES + random.below(3)),
        1 => ";".repeat(MOST_TOKENS + random.below(3)),
        _ => damage::any(random, 2),
    };
    section.compare(edition, &script, room(random));
}

/// Random cases of one kind until the time is over.
fn random(
    mut section: Section,
    time: Duration,
    seed: u64,
    compare: impl Fn(&mut Random, &mut Section),
) -> Section {
    let begin = Instant::now();
    let mut random = Random::new(seed);
    while begin.elapsed() < time {
        compare(&mut random, &mut section);
    }
    section
}

/// Mostly room for all that random scripts have; else a little room, so that some do not fit.
pub fn room(random: &mut Random) -> Room {
    if !random.once_in(8) {
        return Room::of(400, 16);
    }
    Room {
        records: random.below(200),
        directory: random.below(6 * ENTRY),
    }
}

/// A script whose depth is known: 15 at the construct that is one too deep, and only there.
fn deep(random: &mut Random, edition: u32, section: &mut Section) {
    let storeys = DEPTH - 4 + random.below(9);
    let (script, opening) = towers::tower(random, edition, storeys);
    let expected = opening.get(DEPTH).map_or([0, 0], |byte| [15, *byte as u32]);
    match reading::compare(edition, &script, Room::FULL) {
        Ok(same) if same.answer().is_some_and(|answer| answer[..2] == expected) => {
            section.count(same);
        }
        found => {
            if section.differs() {
                println!("DIFFERS in {}: {script:?}", section.name);
                println!("  {found:?}, expected {expected:?}");
            }
        }
    }
}
