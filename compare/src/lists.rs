//! Lists of names: which are well formed, and what a read answers of one that is not.
use crate::memory::{Memory, Room};
use crate::random::Random;
use crate::rules::{LISTS, NOTHING};
use crate::tally::Section;
use calls::{Answer, Change, Lists, Totals, EDITIONS};
use std::collections::HashSet;

const MOST_NAMES: usize = 256;
const MOST_LENGTH: usize = 32;

/// The script that is read, and the text that takes its place. No list that is made here has these names.
const SCRIPT: &[u8] = b"Q;";
const TEXT: &[u8] = b"R;";

/// What both are read as in an edition.
const fn totals(edition: u32) -> Totals {
    [2, 1, 1, 2, 0, edition]
}

/// Reads a short script, and amends it, with lists of which one was made at random, mostly in one of the editions.
pub fn compare(random: &mut Random, section: &mut Section) {
    let list = list(random);
    let mut lists = LISTS;
    let is_currencies = random.once_in(2);
    match (is_currencies, random.once_in(2)) {
        (true, _) => lists.currencies = &list,
        (false, true) => lists.reserved = &list,
        (false, false) => lists.day_counters = &list,
    }
    let edition = [1, 1, 1, 2, 2, 2, 0, 3][random.below(8)];
    let ground = match is_well_formed(&list, is_currencies) {
        _ if !EDITIONS.contains(&edition) => 26,
        true => 0,
        false => 2,
    };
    match read(edition, &lists, ground).and_then(|()| amend(edition, &lists, ground)) {
        Ok(()) => {
            section.by_rule[ground as usize] += 1;
            section.amended[ground as usize] += 1;
        }
        Err(found) => {
            if section.differs() {
                let list = String::from_utf8_lossy(&list);
                println!(
                    "DIFFERS in lists: {list:?}, currencies {is_currencies}, edition {edition}"
                );
                println!("  {found}");
            }
        }
    }
}

fn answer(ground: u32, totals: Totals) -> Answer {
    let [bytes, statements, records, tokens, latest, edition] = totals;
    [
        ground, 0, 1, 1, bytes, statements, records, tokens, latest, edition,
    ]
}

fn same<T: PartialEq + std::fmt::Debug>(got: &T, expected: &T) -> Result<(), String> {
    if got == expected {
        Ok(())
    } else {
        Err(format!("{got:?}, expected {expected:?}"))
    }
}

fn read(edition: u32, lists: &Lists, ground: u32) -> Result<(), String> {
    let mut memory = Memory::new(SCRIPT, Room::of(1, 1), lists);
    let before = memory.contents();
    let is_read = ground == 0;
    let left = if is_read { totals(edition) } else { NOTHING };
    same(&memory.read(edition)?, &answer(ground, left))?;
    same(&(memory.contents() != before), &is_read)
}

/// Of a state that was read with other lists.
fn amend(edition: u32, lists: &Lists, ground: u32) -> Result<(), String> {
    let mut first = Memory::new(SCRIPT, Room::of(1, 1), &LISTS);
    first.read(1)?;
    let mut expected = first.contents();
    let mut memory = Memory::holding(&expected, lists);
    let change = Change {
        statement: 0,
        text: TEXT,
    };
    let totals = totals(edition);
    same(&memory.amend(change, &totals)?, &answer(ground, totals))?;
    if ground == 0 {
        expected.script = TEXT.to_vec();
    }
    same(&memory.contents(), &expected)
}

/// Each name ends in a line feed, has 1 to 32 bytes of 0x20 to 0x7E without quote, and stands there once. Currencies have
/// three capital letters, USD first.
pub fn is_well_formed(list: &[u8], is_currencies: bool) -> bool {
    if list.is_empty() {
        return !is_currencies;
    }
    if !list.ends_with(b"\n") {
        return false;
    }
    let names: Vec<&[u8]> = list[..list.len() - 1]
        .split(|byte| *byte == b'\n')
        .collect();
    let is_name = |name: &&[u8]| {
        let printable = name
            .iter()
            .all(|byte| matches!(byte, 0x20..=0x7e) && *byte != b'"');
        let capitals = name.len() == 3 && name.iter().all(u8::is_ascii_uppercase);
        (1..=MOST_LENGTH).contains(&name.len()) && printable && (!is_currencies || capitals)
    };
    names.len() <= MOST_NAMES
        && names.iter().all(is_name)
        && names.iter().collect::<HashSet<_>>().len() == names.len()
        && (!is_currencies || names[0] == b"USD")
}

/// A list that is mostly well formed, with one fault at most.
fn list(random: &mut Random) -> Vec<u8> {
    let count = [0, 1, 2, 5, 30, 255, 256, 257][random.below(8)];
    let capitals = random.once_in(2);
    let mut names: Vec<String> = (0..count).map(|k| name(k, capitals, random)).collect();
    if random.once_in(3) && count > 0 {
        let k = random.below(count);
        names[k] = odd_name(&names, random);
    }
    let mut list: Vec<u8> = names
        .iter()
        .flat_map(|name| [name, "\n"])
        .flat_map(str::bytes)
        .collect();
    if random.once_in(12) {
        list.pop();
    }
    list
}

/// Names that differ by their number; as currencies USD is number 0.
fn name(k: usize, capitals: bool, random: &mut Random) -> String {
    let letter = |n: usize| char::from(b'A' + (n % 26) as u8);
    match (k, capitals) {
        (0, true) => "USD".to_string(),
        (_, true) => [letter(k), letter(k / 26), 'Q'].iter().collect(),
        _ => format!("{}{k}", "n".repeat(1 + random.below(28))),
    }
}

fn odd_name(names: &[String], random: &mut Random) -> String {
    let odd = [
        "", "\"", "a\"b", "a\tb", "\u{7f}", "é", "usd", "US", "USDX", "'", " ", "~", "\0", "\r",
    ];
    match random.below(4) {
        0 => names[random.below(names.len())].clone(),
        1 => "w".repeat(MOST_LENGTH + random.below(2)),
        _ => random.pick(&odd).to_string(),
    }
}
