//! Days of the calendar: the count that records have of them, by a rule of its own, and scripts with each of them.
use crate::memory::Room;
use crate::tally::Section;
use std::time::{Duration, Instant};

const YEARS: u32 = 9999;

/// From one year to the next that is compared. It shares no divisor with their number, so that each year comes once, and a
/// short run has some of all centuries.
const STEP: u32 = 3701;

/// 0001-01-01 is 1. The years are counted from March, so that a leap day is the last of its year, and the months behind March
/// follow one pattern: 31, 30, 31, 30, 31 days, and again.
pub fn count(year: u32, month: u32, day: u32) -> u32 {
    let (years, months) = if month < 3 {
        (year - 1, month + 9)
    } else {
        (year, month - 3)
    };
    let leap_days = years / 4 - years / 100 + years / 400;
    365 * years + leap_days + (153 * months + 2) / 5 + day - 306
}

/// The count of a date, yyyy-mm-dd; 0 where there is no such day.
pub fn count_of(date: &[u8]) -> u32 {
    let shape: Vec<u8> = date
        .iter()
        .map(|byte| if byte.is_ascii_digit() { b'd' } else { *byte })
        .collect();
    if shape != b"dddd-dd-dd" {
        return 0;
    }
    let number = |digits: &[u8]| {
        digits
            .iter()
            .fold(0, |sum, d| sum * 10 + u32::from(d - b'0'))
    };
    let (year, month, day) = (number(&date[..4]), number(&date[5..7]), number(&date[8..]));
    let is_day = year >= 1 && (1..=12).contains(&month) && (1..=length(year, month)).contains(&day);
    if is_day {
        count(year, month, day)
    } else {
        0
    }
}

/// Years, each with all its days, until the time is over.
pub fn run(time: Duration) -> Section {
    let begin = Instant::now();
    let mut section = Section::new("days of the calendar");
    let mut years = 0;
    while years < YEARS && begin.elapsed() < time {
        for script in scripts(1 + years * STEP % YEARS) {
            section.compare(1, &script, Room::FULL);
        }
        years += 1;
    }
    section.remark = format!("all days of {years} years, of {YEARS}");
    section
}

/// Every day of a year as a date, in each place that takes one. And the day behind each month's last, alone, since it is
/// refused.
fn scripts(year: u32) -> Vec<String> {
    let mut days = String::new();
    let mut scripts = Vec::new();
    for month in 1..=12 {
        let behind = length(year, month) + 1;
        days.extend((1..behind).map(|day| statement(year, month, day)));
        scripts.push(statement(year, month, behind));
    }
    scripts.push(days);
    scripts
}

fn length(year: u32, month: u32) -> u32 {
    let next = if month < 12 {
        count(year, month + 1, 1)
    } else {
        count(year + 1, 1, 1)
    };
    next - count(year, month, 1)
}

fn statement(year: u32, month: u32, day: u32) -> String {
    let date = format!("\"{year:04}-{month:02}-{day:02}\"");
    match day % 5 {
        0 => format!("Spot(\"EUR\",\"USD\",{date});"),
        1 => format!("Spot(\"x\",{date});"),
        2 => format!("Df({date});"),
        3 => format!("RateIndex(\"\",{date},{date});"),
        _ => format!("pays 1 on {date};"),
    }
}
