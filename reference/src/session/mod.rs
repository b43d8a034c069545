//! One centre's session of an evening. It presents to its partner in one direction and receives
//! from it in the other; the directions have nothing in common but the clock and the close.
//! A refused call gives its number and changes neither the session nor the lent buffer.

pub mod course;
pub mod detail;
pub mod hours;
pub mod limits;
pub mod report;
pub mod rules;
pub mod totals;
pub mod trays;

mod clock;
mod envelope;
mod header;
mod presenting;
mod receiving;
mod refusal;
mod reply;
mod start;
mod total;

#[cfg(test)]
mod round_trips;

use detail::DetailCheck;
use envelope::Envelope;
use limits::Limits;
use presenting::Presenting;
use receiving::Receiving;
use rules::Rules;
use totals::Totals;

#[derive(Clone, Copy, Debug, PartialEq, Eq)]
pub enum Close {
    Open,
    /// Both session totals were accepted as this centre knows.
    Ordered,
    Forced,
}

#[derive(Clone, Debug)]
pub struct Session {
    date: u32,
    own: u16,
    partner: u16,
    represented: Vec<u16>,
    last_seen: u32,
    close: Close,
    presenting: Presenting,
    receiving: Receiving,
    rules: Rules,
    limits: Limits,
    check: DetailCheck,
}

impl Session {
    /// The running totals of the lot open in the presenting direction, zero if none is.
    pub fn running_presenting(&self) -> Totals {
        self.presenting.course.running()
    }

    pub fn running_receiving(&self) -> Totals {
        self.receiving.course.running()
    }

    pub fn close(&self) -> Close {
        self.close
    }

    pub fn last_seen(&self) -> u32 {
        self.last_seen
    }

    /// For tests that cannot run as long as the paper's limits ask.
    pub fn set_limits(&mut self, limits: Limits) {
        self.limits = limits;
    }

    /// For tests: the session goes on by these rules.
    pub fn set_rules(&mut self, rules: Rules) {
        self.rules = rules;
    }

    /// For tests: as if this serial had been sent last and its reply taken.
    pub fn set_last_sent(&mut self, serial: u32) {
        self.presenting.sent = serial;
    }

    /// For tests: as if this serial had been received last.
    pub fn set_last_received(&mut self, serial: u32) {
        self.receiving.last = serial;
    }

    pub fn set_detail_check(&mut self, check: DetailCheck) {
        self.check = check;
    }

    fn is_ours(&self, envelope: &Envelope, presenting: u16, receiving: u16) -> bool {
        envelope.date == self.date
            && (envelope.presenting, envelope.receiving) == (presenting, receiving)
    }
}
