//! An end as a generator knows it from the answers so far.

use super::draft::Written;

#[derive(Clone, Copy, PartialEq, Eq)]
pub enum Sort {
    Header(u64),
    Detail,
    Lot,
    Session,
}

/// A message whose reply has not been taken yet.
pub struct Awaited {
    pub sort: Sort,
    pub message: Written,
    pub reply: Option<Written>,
}

/// An end, and its direction as a presenter.
pub struct Centre {
    pub own: u16,
    pub represented: Vec<u16>,
    pub time: u64,
    pub awaited: Option<Awaited>,
    pub open: Option<u64>,
    pub lots: Vec<u64>,
    pub ended: bool,
    pub closed: bool,
}

impl Centre {
    pub fn new(own: u16, represented: Vec<u16>, time: u64) -> Centre {
        Centre {
            own,
            represented,
            time,
            awaited: None,
            open: None,
            lots: Vec::new(),
            ended: false,
            closed: false,
        }
    }

    /// What an unrefused reply with this code does at the presenter.
    pub fn take_reply(&mut self, code: u8) {
        let sort = self.awaited.take().map(|awaited| awaited.sort);
        match (sort, code) {
            (Some(Sort::Header(number)), 0) => self.open = Some(number),
            (Some(Sort::Lot), 0) => self.lots.extend(self.open.take()),
            (Some(Sort::Lot), _) => self.open = None,
            (Some(Sort::Session), 0) => self.ended = true,
            _ => {}
        }
    }
}
