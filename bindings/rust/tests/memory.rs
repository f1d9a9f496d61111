//! The calls over lent memory: nothing outside of what is lent, or of what is used, is touched.

mod common;

use common::{refusal, LISTS};
use gorembiin::{amend, read, Counts, Ground, Lists, ENTRY_WORDS, RECORD_WORDS};

/// What stands around and behind what is lent.
const GUARD: u32 = 0xA5A5_A5A5;
const EDGE: usize = 8;

/// The script that most of these read has so many of each.
const FOUR_RECORDS: usize = 4 * RECORD_WORDS;
const TWO_ENTRIES: usize = 2 * ENTRY_WORDS;

/// Room for `words` between two edges.
fn guarded(words: usize) -> Vec<u32> {
    vec![GUARD; words + 2 * EDGE]
}

fn inner(room: &mut [u32]) -> &mut [u32] {
    let end = room.len() - EDGE;
    &mut room[EDGE..end]
}

fn assert_edges(room: &[u32]) {
    assert_eq!(room[..EDGE], [GUARD; EDGE]);
    assert_eq!(room[room.len() - EDGE..], [GUARD; EDGE]);
}

#[test]
fn reading_writes_the_words_it_counts_and_no_other() {
    let (mut records, mut directory) = (guarded(2 * FOUR_RECORDS), guarded(2 * TWO_ENTRIES));
    let counts = read(b"x = 1;y;", 1, &LISTS, inner(&mut records), inner(&mut directory)).unwrap();
    assert_eq!(counts, Counts { bytes: 8, statements: 2, records: 4, tokens: 6, latest: 0, edition: 1 });
    assert_edges(&records);
    assert_edges(&directory);
    assert_eq!(inner(&mut records)[FOUR_RECORDS..], [GUARD; FOUR_RECORDS]);
    assert_eq!(inner(&mut directory)[..TWO_ENTRIES], [0, 6, 3, 4, 0, 6, 8, 1, 2, 0]);
    assert_eq!(inner(&mut directory)[TWO_ENTRIES..], [GUARD; TWO_ENTRIES]);
}

#[test]
fn too_little_room_is_refused_and_nothing_is_written() {
    for (record_words, directory_words) in [(FOUR_RECORDS - 1, TWO_ENTRIES), (FOUR_RECORDS, TWO_ENTRIES - 1), (0, 0)] {
        let (mut records, mut directory) = (guarded(record_words), guarded(directory_words));
        let answer = read(b"x = 1;y;", 1, &LISTS, inner(&mut records), inner(&mut directory));
        assert_eq!(answer, Err(refusal(Ground::NoRoom, 8, 1, 9)));
        assert!(records.iter().chain(&directory).all(|&word| word == GUARD));
    }
    let (mut records, mut directory) = (guarded(FOUR_RECORDS), guarded(TWO_ENTRIES));
    assert!(read(b"x = 1;y;", 1, &LISTS, inner(&mut records), inner(&mut directory)).is_ok());
}

#[test]
fn empty_slices_are_answered() {
    let nothing = Lists { reserved: &[], currencies: &[], day_counters: &[] };
    let few = Lists { currencies: b"USD\n", ..nothing };
    assert_eq!(read(&[], 1, &nothing, &mut [], &mut []).unwrap_err().ground, Ground::List);
    let held = Counts { edition: 1, ..Counts::default() };
    assert_eq!(read(&[], 1, &few, &mut [], &mut []), Ok(held));
    let answer = amend(&mut [], held, 0, &[], &few, &mut [], &mut []);
    assert_eq!(answer.unwrap_err().ground, Ground::NoStatement);
}

#[test]
fn amending_clears_what_it_frees_and_touches_nothing_behind() {
    let mut script = b"x = 1;y = 2;##########".to_vec();
    let used = 12;
    let (mut records, mut directory) = (guarded(2 * FOUR_RECORDS), guarded(2 * TWO_ENTRIES));
    let held = read(&script[..used], 1, &LISTS, inner(&mut records), inner(&mut directory)).unwrap();
    let room = &mut script[..used + 4];
    let counts = amend(room, held, 1, b"z;", &LISTS, inner(&mut records), inner(&mut directory)).unwrap();
    assert_eq!(counts, Counts { bytes: 8, statements: 2, records: 4, tokens: 6, latest: 0, edition: 1 });
    assert_eq!(script, b"x = 1;z;\0\0\0\0##########");
    assert_edges(&records);
    assert_edges(&directory);
    let (freed, behind) = inner(&mut records)[FOUR_RECORDS..].split_at(2 * RECORD_WORDS);
    assert_eq!(freed, [0; 2 * RECORD_WORDS]);
    assert_eq!(behind, [GUARD; 2 * RECORD_WORDS]);
    assert_eq!(inner(&mut directory)[TWO_ENTRIES..], [GUARD; TWO_ENTRIES]);
}

#[test]
fn amending_clears_an_entry_with_its_latest_date() {
    let mut script = *b"x;Df(\"2026-06-30\");";
    let (mut records, mut directory) = (guarded(FOUR_RECORDS), guarded(TWO_ENTRIES));
    let held = read(&script, 1, &LISTS, inner(&mut records), inner(&mut directory)).unwrap();
    assert_eq!(inner(&mut directory), [0, 2, 1, 2, 0, 2, 19, 1, 5, 739_797]);
    amend(&mut script, held, 1, b"", &LISTS, inner(&mut records), inner(&mut directory)).unwrap();
    assert_eq!(inner(&mut directory), [0, 2, 1, 2, 0, 0, 0, 0, 0, 0]);
    assert_edges(&directory);
}

#[test]
fn memory_that_no_reading_left_is_refused_as_it_is() {
    let mut script = *b"x = 1;";
    let (mut records, mut directory) = (guarded(FOUR_RECORDS), guarded(TWO_ENTRIES));
    let good = read(&script, 1, &LISTS, inner(&mut records), inner(&mut directory)).unwrap();
    let wrong = [
        Counts {
            bytes: u32::MAX,
            statements: u32::MAX,
            records: u32::MAX,
            tokens: u32::MAX,
            latest: u32::MAX,
            edition: 1,
        },
        Counts { records: 2, ..good },
        Counts { bytes: 5, ..good },
        Counts { statements: 2, ..good },
        Counts { latest: 1, ..good },
    ];
    let before = (script, records.clone(), directory.clone());
    for held in wrong {
        let answer = amend(&mut script, held, 0, b"y;", &LISTS, inner(&mut records), inner(&mut directory));
        assert_eq!(answer, Err(refusal(Ground::Directory, 0, 1, 1)));
        assert_eq!((script, records.clone(), directory.clone()), before);
    }
}
