//! A sample of cases for the stored answers: each was found equal before it is written.
use crate::amending::{self, Run};
use crate::damage;
use crate::generate;
use crate::memory::Room;
use crate::random::Random;
use crate::reading::{compare_memory, DEPTH};
use crate::runs;
use crate::sections::room;
use crate::tally::GROUNDS;
use crate::towers::tower;
use crate::vectors::{self, Read};
use calls::EDITIONS;
use std::process::ExitCode;

/// Longer cases are left out, and longer scripts and texts, so that the file stays small and is replayed soon.
const LONGEST: usize = 900;
const LONGEST_TEXT: usize = 250;

/// Cases that are tried for each that is asked for.
const TRIES: usize = 600;

/// How many of each ground are taken: more that are accepted than refused.
struct Quota {
    left: [usize; GROUNDS],
}

impl Quota {
    fn new(accepted: usize, refused: usize) -> Self {
        let mut left = [refused; GROUNDS];
        left[0] = accepted;
        Self { left }
    }

    /// Whether one of these grounds is still asked for; if so, all are counted.
    fn takes(&mut self, grounds: &[u32]) -> bool {
        let wanted = grounds.iter().any(|ground| self.left[*ground as usize] > 0);
        if wanted {
            for ground in grounds {
                let left = &mut self.left[*ground as usize];
                *left = left.saturating_sub(1);
            }
        }
        wanted
    }
}

pub fn write(seed: u64, count: usize) -> ExitCode {
    print!("{}", vectors::head());
    println!("# Made by `compare/run RUSTFOLDER sample {seed} {count}`. Each answer was found equal: in edition 1 with the unchanged");
    println!("# Rust, in edition 2 with the second parser, or with the rules where the Rust has none; see FORMAT.md.");
    match reads(seed, count * 2 / 3).and_then(|()| amendments(seed, count - count * 2 / 3)) {
        Ok(()) => ExitCode::SUCCESS,
        Err(found) => {
            eprintln!("{found}");
            ExitCode::FAILURE
        }
    }
}

/// One of the editions, seldom another number.
fn edition(random: &mut Random) -> u32 {
    if random.once_in(100) {
        return [0, 3, u32::MAX][random.below(3)];
    }
    EDITIONS[random.below(EDITIONS.len())]
}

fn script(random: &mut Random, edition: u32) -> String {
    match random.below(6) {
        0 => {
            let storeys = DEPTH - 1 + random.below(4);
            tower(random, edition, storeys).0
        }
        1 | 2 => generate::any(random, edition),
        _ => damage::any(random, edition),
    }
}

/// Room for short scripts: each word of it is compared when the case is replayed.
fn small(room: Room) -> Room {
    let most = Room::of(60, 8);
    Room {
        records: room.records.min(most.records),
        directory: room.directory.min(most.directory),
    }
}

fn reads(seed: u64, count: usize) -> Result<(), String> {
    let mut random = Random::new(seed);
    let mut quota = Quota::new(count * 7 / 20, count / 20);
    let mut written = 0;
    for _ in 0..count * TRIES {
        let edition = edition(&mut random);
        let script = script(&mut random, edition);
        let room = small(room(&mut random));
        let (same, left) = compare_memory(edition, &script, room)
            .map_err(|found| format!("{script:?}: {found}"))?;
        let Some(answer) = same.answer() else {
            continue;
        };
        let title = format!("compared read {}, ground {}", written + 1, answer[0]);
        let read = Read {
            edition,
            script: &script,
            room,
            answer,
            left: &left,
        };
        let case = vectors::read(&title, &read);
        let is_short = case.len() <= LONGEST && script.len() <= LONGEST_TEXT;
        if is_short && quota.takes(&answer[..1]) {
            print!("{case}");
            written += 1;
        }
        if written == count {
            break;
        }
    }
    Ok(())
}

fn amendments(seed: u64, count: usize) -> Result<(), String> {
    let mut random = Random::new(seed);
    let mut quota = Quota::new(count / 2, count / 6);
    let mut written = 0;
    for _ in 0..count * TRIES {
        let edition = EDITIONS[random.below(EDITIONS.len())];
        let run = runs::run(&mut random, edition);
        let room = small(run.room);
        let run = Run { room, ..run };
        let trace = amending::compare(&run).map_err(|found| format!("{run:?}: {found}"))?;
        let grounds: Vec<u32> = trace[1..].iter().map(|(answer, _)| answer[0]).collect();
        let case = vectors::run(&format!("compared run {}", written + 1), &run, &trace);
        let texts = run.steps.iter().map(|step| step.text.len());
        let longest = texts.fold(run.script.len(), usize::max);
        let is_short = case.len() <= LONGEST && longest <= LONGEST_TEXT;
        if is_short && quota.takes(&grounds) {
            print!("{case}");
            written += 1;
        }
        if written == count {
            break;
        }
    }
    Ok(())
}
