//! What an answer is by the rules: places, totals, lists.
use crate::scan::Fault;
use calls::{Answer, Lists, Totals};

/// The lists whose names the Rust and its shims have.
pub const LISTS: Lists<'static> = Lists {
    reserved: oracle::RESERVED.as_bytes(),
    currencies: oracle::CURRENCIES.as_bytes(),
    day_counters: oracle::DAY_COUNTERS.as_bytes(),
};

/// The totals of a reading that was refused.
pub const NOTHING: Totals = [0; calls::TOTALS];

/// The answer of an accepted call that leaves so many bytes, statements, records and tokens, and this latest date, in an
/// edition.
pub fn accepted(counts: [usize; 4], latest: u32, edition: u32) -> Answer {
    let [bytes, statements, records, tokens] = counts.map(|count| count as u32);
    let totals = [bytes, statements, records, tokens, latest, edition];
    answered([0, 0, 1, 1], totals)
}

fn answered(verdict: [u32; 4], totals: Totals) -> Answer {
    let [number, byte, line, column] = verdict;
    let [bytes, statements, records, tokens, latest, edition] = totals;
    [
        number, byte, line, column, bytes, statements, records, tokens, latest, edition,
    ]
}

/// The answer of a refused call: line and column count line feeds and characters before. A UTF-8 continuation byte begins
/// no character.
pub fn refused(text: &[u8], fault: Fault, totals: Totals) -> Answer {
    let before = &text[..fault.byte];
    let lines = before.iter().filter(|byte| **byte == b'\n').count();
    let column = before
        .iter()
        .rev()
        .take_while(|byte| **byte != b'\n')
        .filter(|byte| !matches!(byte, 0x80..=0xBF))
        .count();
    let place = [fault.byte, lines + 1, column + 1].map(|number| number as u32);
    answered([fault.ground, place[0], place[1], place[2]], totals)
}

/// The signs and words that can open a construct which depth counts.
pub fn may_open(token: &[u8]) -> bool {
    let opening: [&[u8]; 7] = [b"(", b"[", b"+", b"-", b"if", b"for", b"pays"];
    opening.contains(&token)
}
