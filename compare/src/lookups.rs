//! The lookup of a record's names, on records of any words.
use crate::lists::is_well_formed;
use crate::random::Random;
use crate::rules::LISTS;
use crate::tally::Section;
use calls::{part, Part, RECORD};

const NONE: Part = Part {
    in_list: false,
    first: 0,
    length: 0,
};

/// What the lookup must hand back: the record's words decide, and what is absent or outside is the empty part.
pub fn rule(
    script: &[u8],
    currencies: &[u8],
    record: &[u32; RECORD],
    start: u32,
    second: bool,
) -> Part {
    let [kind, _, _, f1, f2, f3, ..] = *record;
    let in_script = |place: u32, length: u32| {
        let first = u64::from(start) + u64::from(place);
        let is_inside = first + u64::from(length) <= script.len() as u64;
        let part = Part {
            in_list: false,
            first: first as usize,
            length: length as usize,
        };
        if is_inside {
            part
        } else {
            NONE
        }
    };
    match (kind, second) {
        (1 | 5 | 33 | 35 | 39, false) => in_script(f1, f2),
        (34, false) if f2 != 0 => in_script(f2, f3),
        (32, false) => in_list(currencies, f1),
        (32, true) | (36, false) => in_list(currencies, f2),
        _ => NONE,
    }
}

/// Where the currency of this number, from 1, stands in the list.
fn in_list(currencies: &[u8], number: u32) -> Part {
    if !is_well_formed(currencies, true) {
        return NONE;
    }
    let names = currencies.split_inclusive(|byte| *byte == b'\n');
    let before = (number as usize).wrapping_sub(1);
    match names.clone().nth(before) {
        Some(name) => Part {
            in_list: true,
            first: names.take(before).map(<[u8]>::len).sum(),
            length: name.len() - 1,
        },
        None => NONE,
    }
}

/// Looks up a name of a record made at random.
pub fn compare(random: &mut Random, section: &mut Section) {
    let script = b"x = Spot(\"EUR\") + name; if a { pays 1 on \"2020-02-29\"; }";
    let lists: [&[u8]; 5] = [LISTS.currencies, b"USD\n", b"", b"USD", b"EUR\nUSD\n"];
    let currencies = lists[random.below(lists.len())];
    let small = [
        0,
        1,
        2,
        3,
        12,
        13,
        54,
        55,
        56,
        57,
        1 << 31,
        u32::MAX - 1,
        u32::MAX,
    ];
    let mut record = [0; RECORD].map(|_: u32| small[random.below(small.len())]);
    record[0] = random.below(42) as u32;
    let start = small[random.below(small.len())];
    let second = random.once_in(2);
    let got = part(script, currencies, &record, start, second);
    let expected = rule(script, currencies, &record, start, second);
    if got == expected {
        section.looked_up += 1;
    } else if section.differs() {
        let list = String::from_utf8_lossy(currencies);
        println!("DIFFERS in lookups: {record:?} at {start}, second {second}, {list:?}");
        println!("  {got:?}, expected {expected:?}");
    }
}
