//! The engine, the script interpreter, the calendar, the tariff, the check digits and the lot file,
//! meant to have one fault in them. Plays the scripts of the files named as arguments and tells the
//! first whose answers differ from those noted there, or that makes the player panic.

mod asked;
mod calendar;
mod calendar_script;
mod check_digits;
mod check_digits_script;
mod checked;
mod hex;
mod lent;
mod lot_file;
mod lot_file_script;
mod packed;
mod plain;
mod questions;
mod random;
mod script;
mod session;
mod tariff;
mod tariff_script;
mod tray_script;

/// The tuned check has no part in scripts.
mod tuned {
    pub use crate::plain::{check_by, check_to_send};
}

use checked::Checked;
use std::panic::catch_unwind;
use std::process::ExitCode;

fn main() -> ExitCode {
    for path in std::env::args().skip(1) {
        let corpus = std::fs::read(path).expect("the corpus can be read");
        if let Some(name) = first_that_differs(&corpus) {
            println!("{name}");
            return ExitCode::from(1);
        }
    }
    ExitCode::SUCCESS
}

/// Each script has a line with its name and the lengths of its text and of its answers, parted
/// by tabs; text and answers follow.
fn first_that_differs(corpus: &[u8]) -> Option<String> {
    let mut rest = corpus;
    while let Some(end) = rest.iter().position(|&byte| byte == b'\n') {
        let head = String::from_utf8_lossy(&rest[..end]);
        let words: Vec<&str> = head.split('\t').collect();
        let length = |at: usize| words[at].parse().expect("a length");
        let (text, after) = rest[end + 1..].split_at(length(1));
        let (answers, after) = after.split_at(length(2));
        let play = match words[0] {
            "trays" => tray_script::play,
            name if name.starts_with("calendar") => calendar_script::play,
            name if name.starts_with("check digits") => check_digits_script::play,
            name if name.starts_with("lot file") => lot_file_script::play,
            name if name.starts_with("tariff") => tariff_script::play,
            _ => script::play,
        };
        if !catch_unwind(|| play(text)).is_ok_and(|played| played == answers) {
            return Some(words[0].into());
        }
        rest = after;
    }
    None
}
