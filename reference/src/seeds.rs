//! The seeds of a test's run.

use std::env;
use std::ops::Range;

/// As many as usual from 0 on. `LONG=n` takes n times as many, `SEED=s` begins with s.
pub fn seeds(usual: u64) -> Range<u64> {
    let first = number_from("SEED").unwrap_or(0);
    let times = number_from("LONG").unwrap_or(1);
    first..first + times * usual
}

fn number_from(name: &str) -> Option<u64> {
    let text = env::var(name).ok()?;
    Some(
        text.parse()
            .unwrap_or_else(|_| panic!("{name}={text} is no number")),
    )
}
