//! The compensation date of a day of 2028. It is found by going on from date to date; the table
//! has no part in it.

use super::date::Date;
use super::year_2028::{dates, is_worked};

/// The date is 0 unless it is found.
#[repr(C)]
#[derive(Clone, Copy, Debug, PartialEq, Eq)]
pub struct Compensation {
    /// 0 the date, 1 none left in the year, 2 what was asked for is no day of 2028.
    pub found: u8,
    pub date: u32,
}

impl Compensation {
    pub const NONE_LEFT: Compensation = Compensation { found: 1, date: 0 };
    pub const NO_DAY: Compensation = Compensation { found: 2, date: 0 };
}

/// Of the day with this date, the number DDMM28.
pub fn compensation_date(date: u32) -> Compensation {
    let Some(asked) = day_of_2028(date) else {
        return Compensation::NO_DAY;
    };
    let mut later = dates().skip_while(|date| *date != asked).skip(1);
    match later.find(|date| is_worked(*date)) {
        None => Compensation::NONE_LEFT,
        Some(day) => Compensation {
            found: 0,
            date: day.number(),
        },
    }
}

/// The year is looked at first, which spares the walk for most numbers.
fn day_of_2028(number: u32) -> Option<Date> {
    if number % 100 != 28 {
        return None;
    }
    dates().find(|date| date.number() == number)
}
