//! Every sequence over an alphabet, in order of length.
use crate::alphabets::Alphabet;
use crate::memory::Room;
use crate::reading::Same;
use crate::tally::Section;
use std::time::{Duration, Instant};

/// More than sequences of these lengths need.
const ROOM: Room = Room::of(64, 16);

/// Runs sequences in an edition by length until the time is over. The row says up to which length all were compared.
pub fn run(alphabet: &Alphabet, edition: u32, time: Duration) -> Section {
    let begin = Instant::now();
    let mut section = Section::in_edition(alphabet.name, edition);
    section.compare(edition, "", ROOM);
    let mut open: Vec<String> = vec![String::new()];
    let mut complete = 0;
    'longer: while !open.is_empty() {
        let mut longer = Vec::new();
        for prefix in &open {
            if begin.elapsed() >= time {
                break 'longer;
            }
            for letter in alphabet.letters {
                let script = joined(prefix, alphabet.between, letter);
                let found = section.compare(edition, &script, ROOM);
                if complete + 1 < alphabet.whole || !is_settled(found, &script) {
                    longer.push(script);
                }
            }
        }
        complete += 1;
        open = longer;
    }
    section.remark = remark(alphabet, complete);
    section
}

fn joined(prefix: &str, between: &str, letter: &str) -> String {
    if prefix.is_empty() {
        letter.to_string()
    } else {
        format!("{prefix}{between}{letter}")
    }
}

fn remark(alphabet: &Alphabet, complete: usize) -> String {
    let (letters, whole) = (alphabet.letters.len(), complete.min(alphabet.whole));
    if complete > whole {
        format!("length 0 to {whole} over {letters} letters: all; to {complete}: all that begin with none refused before its end")
    } else {
        format!("length 0 to {whole} over {letters} letters: all")
    }
}

/// Refused before the end of the script.
fn is_settled(found: Option<Same>, script: &str) -> bool {
    match found {
        Some(Same::AsRust(answer) | Same::AsSecond(answer)) => {
            answer[0] != 0 && (answer[1] as usize) < script.len()
        }
        _ => false,
    }
}
