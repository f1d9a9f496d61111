//! Dates by the rule that the archive follows: yyyy-mm-dd, a Gregorian day of the years 0001 to 9999.
use super::errors::{QSError, Result};

#[derive(Debug, Clone, Copy, Default, PartialEq)]
pub struct Date {
    pub year: u32,
    pub month: u32,
    pub day: u32,
}

impl Date {
    /// The format is the same in every call, and it is the rule above.
    pub fn from_str(text: &str, _format: &str) -> Result<Self> {
        date(text.as_bytes()).ok_or_else(|| QSError::InvalidValueErr(format!("no date: {text}")))
    }
}

fn date(text: &[u8]) -> Option<Date> {
    let [y1, y2, y3, y4, b'-', m1, m2, b'-', d1, d2] = text else {
        return None;
    };
    let year = number(&[*y1, *y2, *y3, *y4])?;
    let month = number(&[*m1, *m2])?;
    let day = number(&[*d1, *d2])?;
    let is_day = year >= 1 && (1..=days_of(year, month)).contains(&day);
    is_day.then_some(Date { year, month, day })
}

fn number(digits: &[u8]) -> Option<u32> {
    digits.iter().try_fold(0, |sum, digit| {
        digit
            .is_ascii_digit()
            .then(|| sum * 10 + u32::from(digit - b'0'))
    })
}

fn days_of(year: u32, month: u32) -> u32 {
    let leap = matches!((year % 4, year % 100, year % 400), (_, _, 0) | (0, 1.., _));
    match month {
        2 => 28 + u32::from(leap),
        4 | 6 | 9 | 11 => 30,
        1..=12 => 31,
        _ => 0,
    }
}
