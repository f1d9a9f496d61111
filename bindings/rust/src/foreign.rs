//! The library's C functions. All `unsafe` code of the crate is here: it turns slices into pointers and lengths.
//!
//! Each function is sound for all arguments. The library asks nothing of its caller but slices that are what they say and
//! do not overlap, which Rust's references are; an empty slice has a pointer that is not null. It reads and writes within
//! them, keeps no pointer, and has no state.
#![allow(unsafe_code)]

use crate::lists::Lists;
use crate::RECORD_WORDS;

/// Number, byte, line, column; and then the state: bytes, statements, records, tokens, latest date, edition.
pub(crate) type Answer = [u32; 10];

/// 0 for the script or 1 for the list of currencies, first byte, length.
pub(crate) type Place = [u32; 3];

/// Year, month, day.
pub(crate) type Day = [u32; 3];

extern "C" {
    fn script_read(
        script: *const u8,
        script_bytes: usize,
        edition: u32,
        reserved: *const u8,
        reserved_bytes: usize,
        currencies: *const u8,
        currencies_bytes: usize,
        day_counters: *const u8,
        day_counters_bytes: usize,
        records: *mut u32,
        records_words: usize,
        directory: *mut u32,
        directory_words: usize,
        answer: *mut Answer,
    );

    fn script_amend(
        script: *mut u8,
        script_bytes: usize,
        statement: u32,
        text: *const u8,
        text_bytes: usize,
        reserved: *const u8,
        reserved_bytes: usize,
        currencies: *const u8,
        currencies_bytes: usize,
        day_counters: *const u8,
        day_counters_bytes: usize,
        records: *mut u32,
        records_words: usize,
        directory: *mut u32,
        directory_words: usize,
        answer: *mut Answer,
    );

    fn script_part(
        script: *const u8,
        script_bytes: usize,
        currencies: *const u8,
        currencies_bytes: usize,
        record: *const [u32; RECORD_WORDS],
        start: u32,
        second: bool,
        place: *mut Place,
    );

    fn calendar_count(year: u32, month: u32, day: u32) -> u32;

    fn calendar_day(count: u32, day: *mut Day);
}

pub(crate) fn read(script: &[u8], edition: u32, lists: &Lists, records: &mut [u32], directory: &mut [u32]) -> Answer {
    let mut answer = Answer::default();
    // SAFETY: every pointer and length is of one live slice or array, and those that are written are borrowed alone.
    unsafe {
        script_read(
            script.as_ptr(),
            script.len(),
            edition,
            lists.reserved.as_ptr(),
            lists.reserved.len(),
            lists.currencies.as_ptr(),
            lists.currencies.len(),
            lists.day_counters.as_ptr(),
            lists.day_counters.len(),
            records.as_mut_ptr(),
            records.len(),
            directory.as_mut_ptr(),
            directory.len(),
            &mut answer,
        );
    }
    answer
}

/// The last six words of `answer` are the state of the memory, before and after.
pub(crate) fn amend(
    script: &mut [u8],
    statement: u32,
    text: &[u8],
    lists: &Lists,
    records: &mut [u32],
    directory: &mut [u32],
    answer: &mut Answer,
) {
    // SAFETY: as in `read`.
    unsafe {
        script_amend(
            script.as_mut_ptr(),
            script.len(),
            statement,
            text.as_ptr(),
            text.len(),
            lists.reserved.as_ptr(),
            lists.reserved.len(),
            lists.currencies.as_ptr(),
            lists.currencies.len(),
            lists.day_counters.as_ptr(),
            lists.day_counters.len(),
            records.as_mut_ptr(),
            records.len(),
            directory.as_mut_ptr(),
            directory.len(),
            answer,
        );
    }
}

pub(crate) fn part(script: &[u8], currencies: &[u8], record: &[u32; RECORD_WORDS], start: u32, second: bool) -> Place {
    let mut place = [0; 3];
    // SAFETY: as in `read`.
    unsafe {
        script_part(
            script.as_ptr(),
            script.len(),
            currencies.as_ptr(),
            currencies.len(),
            record,
            start,
            second,
            &mut place,
        );
    }
    place
}

/// 0 where there is no such day.
pub(crate) fn count(year: u32, month: u32, day: u32) -> u32 {
    // SAFETY: nothing is lent.
    unsafe { calendar_count(year, month, day) }
}

/// Three times 0 where no day has the count.
pub(crate) fn day(count: u32) -> Day {
    let mut day = [0; 3];
    // SAFETY: as in `read`.
    unsafe { calendar_day(count, &mut day) };
    day
}

#[cfg(test)]
mod tests {
    use super::{amend, read};
    use crate::{Lists, ENTRY_WORDS, RECORD_WORDS};

    #[test]
    fn a_refused_call_answers_0_or_the_state_that_it_was_lent() {
        let (mut records, mut directory) = ([0; RECORD_WORDS], [0; ENTRY_WORDS]);
        let lists = Lists::default();
        let mut script = *b"Df(\"2026-06-30\");";
        assert_eq!(read(&script[..16], 2, &lists, &mut records, &mut directory), [8, 16, 1, 17, 0, 0, 0, 0, 0, 0]);
        let mut answer = read(&script, 2, &lists, &mut records, &mut directory);
        assert_eq!(answer, [0, 0, 1, 1, 17, 1, 1, 5, 739_797, 2]);
        amend(&mut script, 0, b"x", &lists, &mut records, &mut directory, &mut answer);
        assert_eq!(answer, [8, 1, 1, 2, 17, 1, 1, 5, 739_797, 2]);
        answer[8] += 1;
        amend(&mut script, 0, b"x;", &lists, &mut records, &mut directory, &mut answer);
        assert_eq!(answer, [20, 0, 1, 1, 17, 1, 1, 5, 739_798, 2]);
        answer[9] = 3;
        amend(&mut script, 0, b"x;", &lists, &mut records, &mut directory, &mut answer);
        assert_eq!(answer, [26, 0, 1, 1, 17, 1, 1, 5, 739_798, 3]);
        assert_eq!(read(&script, 3, &lists, &mut records, &mut directory), [26, 0, 1, 1, 0, 0, 0, 0, 0, 0]);
    }
}
