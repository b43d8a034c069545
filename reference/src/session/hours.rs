//! The hours of an evening, in seconds of the day.

pub const OPENING: u32 = 75_600;
/// From here on a presenter sends no header.
pub const PRECLOSE: u32 = 83_700;
/// From here on a receiver takes no header. The half minute after the preclose is for clocks that
/// differ; no other hour has such a margin.
pub const CUT_OFF: u32 = 83_730;
pub const CLOSE: u32 = 84_600;
pub const LAST_SECOND: u32 = 86_399;
