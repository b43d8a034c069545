//! The rules that requests have changed, all in one place; the circular's are those of the scope
//! paper as it stands. A session keeps its own copy, so that a script can be played by either set,
//! and hands it on to the detail check.

use super::hours::{CUT_OFF, PRECLOSE};

#[derive(Clone, Copy, Debug, PartialEq, Eq)]
pub struct Rules {
    /// The hour from which a receiver gives 10 to headers.
    pub cut_off: u32,
    /// Whether there is code 44: a detail with a document of nominal zero gets it, and replies may
    /// carry it.
    pub knows_44: bool,
}

impl Rules {
    /// As they were before any change.
    pub const CIRCULAR: Rules = Rules {
        cut_off: PRECLOSE,
        knows_44: false,
    };

    pub const TODAY: Rules = Rules {
        cut_off: CUT_OFF,
        knows_44: true,
    };
}
