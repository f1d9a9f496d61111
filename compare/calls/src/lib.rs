//! The archive's calls.

mod raw;

/// Words of a record, of an entry of the directory, of an answer, and of the totals in which it ends.
pub const RECORD: usize = 8;
pub const ENTRY: usize = 5;
pub const ANSWER: usize = 10;
pub const TOTALS: usize = 6;

/// The word of an entry, and of the totals, that has the latest date: a day count, 0 where there is none.
pub const LATEST: usize = 4;

/// The word of the totals that has the edition; 0 where nothing was read.
pub const EDITION: usize = 5;

/// The editions of the script language.
pub const EDITIONS: [u32; 2] = [1, 2];

/// The word of a record that has its place, counted from its statement's first byte.
pub const PLACE: usize = 7;

/// The most that the archive takes.
pub const MOST_BYTES: usize = 16_384;
pub const MOST_TOKENS: usize = 4_096;
pub const MOST_RECORDS: usize = 2_048;
pub const MOST_STATEMENTS: usize = 512;

/// What a call answers: number, byte, line, column, and the totals.
pub type Answer = [u32; ANSWER];

/// Of a whole script: bytes, statements, records, tokens, latest date, edition.
pub type Totals = [u32; TOTALS];

/// The totals of an answer.
pub fn totals(answer: &Answer) -> Totals {
    *answer.last_chunk().expect("an answer ends in its totals")
}

/// The three lists of names, each name ended by a line feed.
#[derive(Clone, Copy)]
pub struct Lists<'a> {
    pub reserved: &'a [u8],
    pub currencies: &'a [u8],
    pub day_counters: &'a [u8],
}

/// A part of the script, or of the list of currencies.
#[derive(Debug, Clone, Copy, PartialEq)]
pub struct Part {
    pub in_list: bool,
    pub first: usize,
    pub length: usize,
}

pub fn read(
    script: &[u8],
    edition: u32,
    lists: &Lists,
    records: &mut [u32],
    directory: &mut [u32],
    answer: &mut Answer,
) {
    // SAFETY: each pointer comes with the length of the slice it is taken from, and the slices do not overlap.
    unsafe {
        raw::script_read(
            script.as_ptr(),
            script.len(),
            edition,
            lists.reserved.as_ptr(),
            lists.reserved.len(),
            lists.currencies.as_ptr(),
            lists.currencies.len(),
            lists.day_counters.as_ptr(),
            lists.day_counters.len(),
            records.as_mut_ptr(),
            records.len(),
            directory.as_mut_ptr(),
            directory.len(),
            answer,
        );
    }
}

/// The statement that is replaced, and the text that replaces it.
#[derive(Clone, Copy)]
pub struct Change<'a> {
    pub statement: u32,
    pub text: &'a [u8],
}

/// The totals in `answer` are those of what the memory holds.
pub fn amend(
    script: &mut [u8],
    change: Change,
    lists: &Lists,
    records: &mut [u32],
    directory: &mut [u32],
    answer: &mut Answer,
) {
    // SAFETY: each pointer comes with the length of the slice it is taken from, and the slices do not overlap.
    unsafe {
        raw::script_amend(
            script.as_mut_ptr(),
            script.len(),
            change.statement,
            change.text.as_ptr(),
            change.text.len(),
            lists.reserved.as_ptr(),
            lists.reserved.len(),
            lists.currencies.as_ptr(),
            lists.currencies.len(),
            lists.day_counters.as_ptr(),
            lists.day_counters.len(),
            records.as_mut_ptr(),
            records.len(),
            directory.as_mut_ptr(),
            directory.len(),
            answer,
        );
    }
}

/// The first name of a record, or a Spot's second, where `start` is the first byte of the record's statement.
pub fn part(
    script: &[u8],
    currencies: &[u8],
    record: &[u32; RECORD],
    start: u32,
    second: bool,
) -> Part {
    let mut place = [u32::MAX; 3];
    // SAFETY: each pointer comes with the length of the slice it is taken from, and the slices do not overlap.
    unsafe {
        raw::script_part(
            script.as_ptr(),
            script.len(),
            currencies.as_ptr(),
            currencies.len(),
            record,
            start,
            second,
            &mut place,
        );
    }
    Part {
        in_list: place[0] == 1,
        first: place[1] as usize,
        length: place[2] as usize,
    }
}
