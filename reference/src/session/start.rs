//! The start of a session, which builds a fresh one.

use super::detail::DetailCheck;
use super::limits::{Limits, LAST_FOUR_DIGITS, REPRESENTED};
use super::refusal::{refuse, Refusal};
use super::rules::Rules;
use super::{Close, Presenting, Receiving, Session};

impl Session {
    /// By today's rules. The date is the number DDMMYY.
    pub fn start(
        date: u32,
        own: u16,
        partner: u16,
        represented: &[u16],
    ) -> Result<Session, Refusal> {
        Session::start_by(Rules::TODAY, date, own, partner, represented)
    }

    pub fn start_by(
        rules: Rules,
        date: u32,
        own: u16,
        partner: u16,
        represented: &[u16],
    ) -> Result<Session, Refusal> {
        refuse(24, !is_date(date) || own == partner)?;
        refuse(24, represented.len() > REPRESENTED)?;
        let mut entities = [own, partner]
            .into_iter()
            .chain(represented.iter().copied());
        refuse(24, entities.any(|entity| entity > LAST_FOUR_DIGITS))?;
        Ok(Session {
            date,
            own,
            partner,
            represented: represented.to_vec(),
            last_seen: 0,
            close: Close::Open,
            presenting: Presenting::default(),
            receiving: Receiving::default(),
            rules,
            limits: Limits::PAPER,
            check: DetailCheck::PLAIN,
        })
    }
}

/// In the years 2000 to 2099 every fourth has a 29 February.
fn is_date(date: u32) -> bool {
    let (day, month, year) = (date / 10_000, date / 100 % 100, date % 100);
    let last = match month {
        1 | 3 | 5 | 7 | 8 | 10 | 12 => 31,
        4 | 6 | 9 | 11 => 30,
        2 if year % 4 == 0 => 29,
        2 => 28,
        _ => 0,
    };
    (1..=last).contains(&day)
}
