//! The line's calendar against that of the reference: the table of next working days for given
//! and generated lists, the compensation dates, and the stored text of the table of 2028.
//!
//! `LONG=n` takes n times as many seeds, `SEED=s` begins with another seed than 0.

use reference::calendar::compensation::{compensation_date, Compensation};
use reference::calendar::date::{Date, Weekday};
use reference::calendar::year_2028;
use reference::calendar_script::{self, Calendar};
use reference::compare::questions::Both;
use reference::corpus::calendar::{fixed, of_seed};
use reference::generate::calendar::SEEDS;
use reference::{compare, line};
use std::fs;
use std::path::Path;

const ENGINE: Calendar = Calendar {
    next_days: line::next_days,
    compensation_date: line::compensation_date,
};

fn engine(text: &[u8]) -> Vec<u8> {
    ENGINE.play(text)
}

const BOTH: Both = Both {
    reference: calendar_script::play,
    engine,
};

/// How many the usual number of seeds gives at the least. About lists any seeds give exactly so
/// many. About dates they give more, but a generator that has lost one of its ways to make dates
/// gives too few of some kind.
const LEAST: [(&str, u64); 6] = [
    ("tables", 450),
    ("bad lists", 2_400),
    ("too few places", 450),
    ("found", 3_500),
    ("none left", 90),
    ("no day", 5_000),
];

fn kind(_: &str, answer: &str) -> &'static str {
    match answer.split(' ').next() {
        Some("00") => "tables",
        Some("40") => "bad lists",
        Some("23") => "too few places",
        Some("0") => "found",
        Some("1") => "none left",
        Some("2") => "no day",
        _ => "no answer",
    }
}

#[test]
fn the_line_answers_fixed_questions_like_the_reference() {
    BOTH.ask_fixed(fixed());
}

#[test]
fn the_line_answers_generated_questions_like_the_reference() {
    BOTH.ask_seeds(SEEDS, of_seed, kind, &LEAST);
}

/// The entries of the days 1, 5, 363 and 364 of 2028, and the lists of the open point A-149.
#[test]
fn the_values_of_the_papers() {
    for calendar in [Calendar::REFERENCE, ENGINE] {
        let table = |unworked: &[u16]| {
            let mut days = [0; 366];
            let code = (calendar.next_days)(unworked, &mut days);
            (code, days)
        };
        let (code, days) = table(&year_2028::unworked());
        assert_eq!((code, &days[..7]), (0, &[3, 3, 4, 5, 7, 7, 10][..]));
        assert_eq!(days[362..], [364, 0, 0, 0]);
        let (code, days) = table(&[]);
        assert_eq!((code, days[0], days[364], days[365]), (0, 2, 366, 0));
        for bad in [[1, 1], [366, 367], [2, 1], [0, 1]] {
            assert_eq!(table(&bad), (40, [0; 366]));
        }
    }
}

#[test]
fn the_dates_of_those_values() {
    for calendar in [Calendar::REFERENCE, ENGINE] {
        for (asked, date) in [(10_128, 30_128), (50_128, 70_128), (281_228, 291_228)] {
            let expected = Compensation { found: 0, date };
            assert_eq!((calendar.compensation_date)(asked), expected);
        }
        for asked in [291_228, 301_228, 311_228] {
            let none_left = (calendar.compensation_date)(asked);
            assert_eq!(none_left, Compensation::NONE_LEFT);
        }
        for asked in [0, 10_127, 300_228, 1_010_128, u32::MAX] {
            let no_day = (calendar.compensation_date)(asked);
            assert_eq!(no_day, Compensation::NO_DAY);
        }
    }
}

/// The reference has them by two ways.
#[test]
fn the_table_and_the_dates_of_the_reference_agree() {
    let dates: Vec<Date> = year_2028::dates().collect();
    assert_eq!((dates.len(), year_2028::unworked().len()), (366, 110));
    for (date, next) in dates.iter().zip(year_2028::table()) {
        let expected = match next {
            0 => Compensation::NONE_LEFT,
            _ => Compensation {
                found: 0,
                date: dates[usize::from(next) - 1].number(),
            },
        };
        assert_eq!(compensation_date(date.number()), expected);
    }
}

#[test]
fn weekdays_that_are_known() {
    for (date, weekday) in [
        (Date::new(15, 10, 1582), Weekday::Friday),
        (Date::new(14, 7, 1789), Weekday::Tuesday),
        (Date::new(1, 1, 1970), Weekday::Thursday),
        (Date::new(29, 2, 2000), Weekday::Tuesday),
        (Date::new(1, 1, 2028), Weekday::Saturday),
        (Date::new(31, 12, 2028), Weekday::Sunday),
    ] {
        assert_eq!(date.weekday(), weekday, "{date:?}");
    }
}

/// The output of the program that makes the table.
#[test]
fn the_stored_text_is_the_table() {
    let path = Path::new(env!("CARGO_MANIFEST_DIR")).join("../crates/next_days/stdout");
    let stored = fs::read_to_string(&path);
    let stored = stored.unwrap_or_else(|error| panic!("{}: {error}", path.display()));
    let (text, expected) = (stored.as_bytes(), year_2028::text());
    assert_eq!(compare::between(expected.as_bytes(), text), None);
    assert_eq!((stored.lines().count(), text.last()), (366, Some(&b'\n')));
}
