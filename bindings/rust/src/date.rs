//! A day of the calendar, and its count.

use std::fmt;

use crate::foreign;

/// A day of the calendar, from 0001-01-01 to 9999-12-31. It prints as yyyy-mm-dd.
///
/// Records have a date as its day count, 0001-01-01 being 1, so the days from one date to another are the difference of
/// their counts.
#[derive(Clone, Copy, Debug, PartialEq, Eq, PartialOrd, Ord)]
pub struct Date {
    // first, so that dates compare as their counts
    count: u32,
    year: u32,
    month: u32,
    day: u32,
}

impl Date {
    /// This day of this month of this year, if there is such a day.
    pub fn new(year: u32, month: u32, day: u32) -> Option<Self> {
        match foreign::count(year, month, day) {
            0 => None,
            count => Some(Date { count, year, month, day }),
        }
    }

    /// The day that has this count, if there is one: from 1 to 3652059.
    pub fn from_count(count: u32) -> Option<Self> {
        match foreign::day(count) {
            [0, 0, 0] => None,
            [year, month, day] => Some(Date { count, year, month, day }),
        }
    }

    /// How many days there are from 0001-01-01 on, both days among them.
    pub fn count(self) -> u32 {
        self.count
    }

    /// 1 to 9999.
    pub fn year(self) -> u32 {
        self.year
    }

    /// 1 to 12.
    pub fn month(self) -> u32 {
        self.month
    }

    /// 1 to 31.
    pub fn day(self) -> u32 {
        self.day
    }
}

impl fmt::Display for Date {
    fn fmt(&self, f: &mut fmt::Formatter<'_>) -> fmt::Result {
        write!(f, "{:04}-{:02}-{:02}", self.year, self.month, self.day)
    }
}
