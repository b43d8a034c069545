//! Dates of the Gregorian calendar.

#[derive(Clone, Copy, Debug, PartialEq, Eq)]
pub struct Date {
    pub day: u32,
    pub month: u32,
    pub year: u32,
}

#[derive(Clone, Copy, Debug, PartialEq, Eq)]
pub enum Weekday {
    Monday,
    Tuesday,
    Wednesday,
    Thursday,
    Friday,
    Saturday,
    Sunday,
}

const WEEK: [Weekday; 7] = [
    Weekday::Monday,
    Weekday::Tuesday,
    Weekday::Wednesday,
    Weekday::Thursday,
    Weekday::Friday,
    Weekday::Saturday,
    Weekday::Sunday,
];

impl Date {
    pub fn new(day: u32, month: u32, year: u32) -> Date {
        Date { day, month, year }
    }

    /// The day after.
    pub fn next(self) -> Date {
        let Date { day, month, year } = self;
        if day < days_in(month, year) {
            Date::new(day + 1, month, year)
        } else if month < 12 {
            Date::new(1, month + 1, year)
        } else {
            Date::new(1, 1, year + 1)
        }
    }

    /// The weeks are counted from 1 January of the year 1, which is a Monday if today's rules
    /// are carried back so far.
    pub fn weekday(self) -> Weekday {
        let years = self.year - 1;
        let of_years = 365 * years + years / 4 - years / 100 + years / 400;
        let of_months: u32 = (1..self.month).map(|month| days_in(month, self.year)).sum();
        let days = of_years + of_months + self.day - 1;
        WEEK[days as usize % WEEK.len()]
    }

    /// As DDMMYY, the first zero left out.
    pub fn number(self) -> u32 {
        self.day * 10_000 + self.month * 100 + self.year % 100
    }
}

fn days_in(month: u32, year: u32) -> u32 {
    match month {
        2 if is_leap(year) => 29,
        2 => 28,
        4 | 6 | 9 | 11 => 30,
        _ => 31,
    }
}

fn is_leap(year: u32) -> bool {
    year % 4 == 0 && (year % 100 != 0 || year % 400 == 0)
}
