//! A second implementation of the cheque exchange, the measure for the first in answers and speed.
//! The detail check stands here four times: written plainly, tuned, by columns, and as the line's
//! exported function. The session and the script interpreter are built on the plain check. They
//! and the first three checks know two sets of rules: today's, which hold where none is named, and
//! the circular's. The calendar and the check digits use nothing of them, the tariff only how a
//! document's numbers are packed, the lot file only the limits of a lot.

pub mod asked;
pub mod bodies;
pub mod books;
pub mod calendar;
pub mod calendar_script;
pub mod check_digits;
pub mod check_digits_script;
pub mod columns;
pub mod compare;
pub mod corpus;
pub mod exchange;
pub mod generate;
pub mod line;
pub mod lot_file;
pub mod lot_file_in_place;
pub mod lot_file_script;
pub mod open_points;
pub mod packed;
pub mod plain;
pub mod questions;
pub mod random;
pub mod script;
pub mod seeds;
pub mod session;
pub mod tariff;
pub mod tariff_script;
pub mod timing;
pub mod tray_script;
pub mod tuned;

mod checked;
mod frame;
mod hex;
mod lent;
mod shortest;

pub use checked::Checked;
