//! The course of one direction as one end knows it: the accepted lots, the open lot and whether
//! the direction has ended. Both ends move it by the same rule, the receiver when it replies and
//! the presenter when it takes the reply.

use super::totals::{SessionTotals, Totals};

#[derive(Clone, Copy, Debug, PartialEq, Eq)]
pub struct Lot {
    pub number: u16,
    pub totals: Totals,
}

/// What an accepted message brings.
#[derive(Clone, Copy, Debug, PartialEq, Eq)]
pub enum Message {
    Header { number: u16 },
    Detail { totals: Totals },
    LotTotal,
    SessionTotal,
}

#[derive(Clone, Debug, Default, PartialEq, Eq)]
pub struct Course {
    pub accepted: Vec<Lot>,
    /// With its running totals.
    pub open: Option<Lot>,
    pub ended: bool,
}

impl Course {
    pub fn accept(&mut self, message: Message) {
        match message {
            Message::Header { number } => {
                let totals = Totals::default();
                self.open = Some(Lot { number, totals });
            }
            Message::Detail { totals } => {
                if let Some(lot) = &mut self.open {
                    lot.totals += totals;
                }
            }
            Message::LotTotal => self.accepted.extend(self.open.take()),
            Message::SessionTotal => self.ended = true,
        }
    }

    /// What a refused lot total does: the open lot, if any, counts as not transmitted.
    pub fn drop_open_lot(&mut self) {
        self.open = None;
    }

    /// Of the open lot, zero if none is open.
    pub fn running(&self) -> Totals {
        self.open.map_or(Totals::default(), |lot| lot.totals)
    }

    /// Of the accepted lots alone.
    pub fn totals(&self) -> SessionTotals {
        let mut totals = Totals::default();
        for lot in &self.accepted {
            totals += lot.totals;
        }
        SessionTotals {
            lots: self.accepted.len() as u64,
            totals,
        }
    }

    pub fn has_accepted_number(&self, number: u16) -> bool {
        self.accepted.iter().any(|lot| lot.number == number)
    }

    pub fn has_accepted_totals(&self, totals: Totals) -> bool {
        self.accepted.iter().any(|lot| lot.totals == totals)
    }
}
