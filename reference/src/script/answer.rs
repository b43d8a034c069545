//! The words of an answer.

use crate::session::course::Lot;
use crate::session::report::{AwaitedTotal, Report};
use crate::session::totals::{SessionTotals, Totals};
use crate::session::Close;

pub fn bad_line() -> String {
    "bad line".into()
}

pub fn no_session() -> String {
    "none".into()
}

pub fn code<T>(result: Result<T, u8>) -> String {
    format!("{:02}", result.err().unwrap_or(0))
}

/// After an unrefused call that wrote.
pub fn written(number: usize, bytes: &[u8]) -> String {
    format!("00 @{number} {}", hex(bytes))
}

fn hex(bytes: &[u8]) -> String {
    const DIGITS: &[u8; 16] = b"0123456789abcdef";
    let mut text = String::with_capacity(2 * bytes.len());
    for byte in bytes {
        text.push(char::from(DIGITS[usize::from(byte >> 4)]));
        text.push(char::from(DIGITS[usize::from(byte & 15)]));
    }
    text
}

pub fn close(close: Close) -> &'static str {
    match close {
        Close::Open => "open",
        Close::Ordered => "ordered",
        Close::Forced => "forced",
    }
}

pub fn report(report: &Report) -> String {
    format!(
        "presented {} received {} {} {} {} {}",
        session_totals(&report.presented),
        session_totals(&report.received),
        close(report.close),
        report.nominal_position,
        report.commission_position,
        awaited(&report.awaited),
    )
}

fn session_totals(totals: &SessionTotals) -> String {
    format!("{} {}", totals.lots, counters(&totals.totals))
}

fn counters(totals: &Totals) -> String {
    format!(
        "{} {} {}",
        totals.documents, totals.nominal, totals.commission
    )
}

fn awaited(awaited: &AwaitedTotal) -> String {
    match awaited {
        AwaitedTotal::None => "none".into(),
        AwaitedTotal::Session => "session".into(),
        AwaitedTotal::Lot(Lot { number, totals }) => format!("lot {number} {}", counters(totals)),
    }
}
