//! Every day of the calendar, from day to count and back, beside a calendar that goes from each day to the next.

mod common;

use common::calendar::{days, written, Day};
use common::LISTS;
use gorembiin::{Date, Edition, Fields, Note, Record, STATEMENTS};

const LAST_COUNT: u32 = 3_652_059;

#[test]
fn every_count_is_one_day() {
    let mut count = 0;
    for day in days() {
        count += 1;
        let date = Date::from_count(count).unwrap();
        assert_eq!(date.count(), count);
        assert_eq!((date.year(), date.month(), date.day()), day);
        assert_eq!(date.to_string(), written(day));
    }
    assert_eq!(count, LAST_COUNT);
}

#[test]
fn no_other_count_is_a_day() {
    let powers = (0..32).map(|k| 1 << k).filter(|&count| count > LAST_COUNT);
    for count in [0, LAST_COUNT + 1, 20_260_630, u32::MAX].into_iter().chain(powers) {
        assert_eq!(Date::from_count(count), None, "{count}");
    }
}

#[test]
fn years_months_and_days_are_a_date_where_the_calendar_has_them() {
    let mut days = days().zip(1..).peekable();
    for year in 0..=10_000 {
        for month in 0..=13 {
            for day in 0..=32 {
                let expected = days.next_if(|&(next, _)| next == (year, month, day)).map(|(_, count)| count);
                assert_eq!(Date::new(year, month, day).map(Date::count), expected, "{year} {month} {day}");
            }
        }
    }
    assert_eq!(days.next(), None);
    for (year, month, day) in [(u32::MAX, 1, 1), (2026, u32::MAX, 1), (2026, 1, u32::MAX)] {
        assert_eq!(Date::new(year, month, day), None);
    }
}

#[test]
fn every_day_is_read_as_its_count() {
    let all: Vec<Day> = days().collect();
    for (place, days) in all.chunks(STATEMENTS).enumerate() {
        let script: String = days.iter().map(|&day| format!("Df(\"{}\");", written(day))).collect();
        let note = Note::read(script.as_bytes(), Edition::One, LISTS).unwrap();
        let records: Vec<Record> = note.statements().flat_map(|statement| statement.records()).collect();
        assert_eq!(records.len(), days.len());
        for ((record, &day), count) in records.into_iter().zip(days).zip((place * STATEMENTS + 1) as u32..) {
            assert_eq!(record.words(), [34, 1, 0, count, 0, 0, 0, 0], "{day:?}");
            let (year, month, day) = day;
            assert_eq!(record.fields(), Fields::Df { date: Date::new(year, month, day), curve: None });
        }
    }
}

#[test]
fn dates_compare_and_subtract_as_days() {
    let (eve, day) = (Date::new(2000, 2, 29).unwrap(), Date::new(2000, 3, 1).unwrap());
    assert!(eve < day);
    assert_eq!(day.count() - eve.count(), 1);
    assert_eq!(Date::new(1970, 1, 1).unwrap().count(), 719_163);
}
