//! The clock: when calls are in time, and the clock call, which alone closes.

use super::hours::{CLOSE, LAST_SECOND, OPENING};
use super::refusal::{refuse, Refusal};
use super::{Close, Session};

impl Session {
    pub fn clock(&mut self, time: u32) -> Result<(), Refusal> {
        self.in_time(time)?;
        self.last_seen = time;
        if time >= CLOSE {
            let both_ended = self.presenting.course.ended && self.receiving.course.ended;
            self.close = if both_ended {
                Close::Ordered
            } else {
                Close::Forced
            };
        }
        Ok(())
    }

    /// What refuses every call with a time.
    fn in_time(&self, time: u32) -> Result<(), Refusal> {
        refuse(20, time > LAST_SECOND)?;
        refuse(32, self.close != Close::Open)?;
        refuse(30, time < self.last_seen)
    }

    /// The same, and for all but the clock call the hours.
    pub(super) fn within_hours(&self, time: u32) -> Result<(), Refusal> {
        self.in_time(time)?;
        refuse(31, !(OPENING..CLOSE).contains(&time))
    }
}
