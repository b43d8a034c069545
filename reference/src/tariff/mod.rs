//! Commissions worked out before sending: the tariff with its keys, the commission of one
//! presented document, and a tray of such documents that gets all of theirs.

pub mod commission;
pub mod keys;
pub mod rounding;
pub mod tray;
