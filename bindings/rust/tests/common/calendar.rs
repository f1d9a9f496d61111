//! The calendar, from each day to the next.

/// Year, month, day.
pub type Day = (u32, u32, u32);

/// The days from 0001-01-01 to 9999-12-31, in their order.
pub fn days() -> impl Iterator<Item = Day> {
    std::iter::successors(Some((1, 1, 1)), |&day| Some(next(day))).take_while(|&(year, _, _)| year <= 9999)
}

fn next((year, month, day): Day) -> Day {
    if day < length(year, month) {
        (year, month, day + 1)
    } else if month < 12 {
        (year, month + 1, 1)
    } else {
        (year + 1, 1, 1)
    }
}

fn length(year: u32, month: u32) -> u32 {
    match month {
        4 | 6 | 9 | 11 => 30,
        2 => match (year % 4, year % 100, year % 400) {
            (_, _, 0) | (0, 1.., _) => 29,
            _ => 28,
        },
        _ => 31,
    }
}

pub fn written((year, month, day): Day) -> String {
    format!("{year:04}-{month:02}-{day:02}")
}
