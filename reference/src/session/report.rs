//! The report: what a session has come to, as this centre knows it.

use super::course::{Lot, Message};
use super::totals::SessionTotals;
use super::{Close, Session};

#[derive(Clone, Copy, Debug, PartialEq, Eq)]
pub struct Report {
    pub presented: SessionTotals,
    pub received: SessionTotals,
    pub close: Close,
    /// Presented minus received.
    pub nominal_position: i64,
    pub commission_position: i64,
    pub awaited: AwaitedTotal,
}

/// The total whose reply has not been taken; awaited headers and details are not shown.
#[derive(Clone, Copy, Debug, PartialEq, Eq)]
pub enum AwaitedTotal {
    None,
    Lot(Lot),
    Session,
}

impl Session {
    pub fn report(&self) -> Report {
        let presented = self.presenting.course.totals();
        let received = self.receiving.course.totals();
        let position = |plus: u64, minus: u64| plus as i64 - minus as i64;
        Report {
            presented,
            received,
            close: self.close,
            nominal_position: position(presented.totals.nominal, received.totals.nominal),
            commission_position: position(presented.totals.commission, received.totals.commission),
            awaited: self.awaited_total(),
        }
    }

    /// The open lot does not change while its total is awaited, so it is what was sent.
    fn awaited_total(&self) -> AwaitedTotal {
        let open = self.presenting.course.open;
        match self.presenting.awaited {
            Some(Message::LotTotal) => open.map_or(AwaitedTotal::None, AwaitedTotal::Lot),
            Some(Message::SessionTotal) => AwaitedTotal::Session,
            _ => AwaitedTotal::None,
        }
    }
}
