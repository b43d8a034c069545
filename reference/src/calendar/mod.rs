//! Working days: the table of next working days for any list of unworked ones, and the year 2028
//! with its compensation dates.

pub mod compensation;
pub mod date;
pub mod next_days;
pub mod year_2028;
