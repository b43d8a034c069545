//! The trays of ready documents, presentations and returns, each with a cursor in documents.

use super::detail::DOCUMENT;
use super::limits::DETAIL_DOCUMENTS;

#[derive(Clone, Copy, Debug)]
pub struct Trays<'a> {
    pub presentations: &'a [u8],
    pub returns: &'a [u8],
    pub presentations_cursor: usize,
    pub returns_cursor: usize,
}

impl<'a> Trays<'a> {
    /// The documents of the next detail; empty when both trays are used up or the check refuses.
    pub fn next_part(&self) -> &'a [u8] {
        if self.check() != 0 {
            return &[];
        }
        if self.presentations_remain() {
            part(self.presentations, self.presentations_cursor)
        } else {
            part(self.returns, self.returns_cursor)
        }
    }

    /// 25 for a tray of no whole documents or a cursor past its tray's end, else 0.
    pub fn check(&self) -> u8 {
        let holds = is_tray(self.presentations, self.presentations_cursor)
            && is_tray(self.returns, self.returns_cursor);
        if holds {
            0
        } else {
            25
        }
    }

    /// That of the next part, 30 or 40.
    pub fn next_operation(&self) -> u8 {
        if self.presentations_remain() {
            30
        } else {
            40
        }
    }

    fn presentations_remain(&self) -> bool {
        self.presentations_cursor < self.presentations.len() / DOCUMENT
    }
}

/// The cursor may be any number, so it is never multiplied before this test.
fn is_tray(tray: &[u8], cursor: usize) -> bool {
    tray.len().is_multiple_of(DOCUMENT) && cursor <= tray.len() / DOCUMENT
}

fn part(tray: &[u8], cursor: usize) -> &[u8] {
    let remaining = &tray[cursor * DOCUMENT..];
    &remaining[..remaining.len().min(DETAIL_DOCUMENTS * DOCUMENT)]
}
