//! The detail's body as a presenter writes it, and the checks of a detail that an engine uses.

use super::limits::DETAIL_DOCUMENTS;
use super::rules::Rules;
use crate::{plain, tuned, Checked};

pub const DOCUMENT: usize = 51;
const HEAD: usize = 4;
const GROUP_DOCUMENTS: usize = 4;

/// The two ends' detail checks by given rules. All choices give the same answers.
#[derive(Clone, Copy, Debug)]
pub struct DetailCheck {
    /// Of a body, for own and the represented entities.
    pub received: fn(Rules, &[u8], u16, &[u16]) -> Checked,
    /// Of whole documents, under a packed operation and for the receiving entity.
    pub to_send: fn(Rules, &[u8], u8, u16) -> Checked,
}

impl DetailCheck {
    pub const PLAIN: DetailCheck = DetailCheck {
        received: plain::check_by,
        to_send: plain::check_to_send,
    };
    pub const TUNED: DetailCheck = DetailCheck {
        received: tuned::check_by,
        to_send: tuned::check_to_send,
    };
}

/// The byte for a presenter's argument, the decimal number 30 or 40.
pub fn packed_operation(operation: u8) -> Option<u8> {
    match operation {
        30 => Some(0x30),
        40 => Some(0x40),
        _ => None,
    }
}

/// A part that can be sent: 1 to 200 whole documents.
pub fn is_part(documents: &[u8]) -> bool {
    documents.len().is_multiple_of(DOCUMENT)
        && (1..=DETAIL_DOCUMENTS).contains(&(documents.len() / DOCUMENT))
}

/// Of a part.
pub fn length(documents: &[u8]) -> usize {
    let count = documents.len() / DOCUMENT;
    documents.len() + count.div_ceil(GROUP_DOCUMENTS) * HEAD
}

/// Fills a body of the part's length.
pub fn write(operation: u8, documents: &[u8], body: &mut [u8]) {
    let parts = documents.chunks(GROUP_DOCUMENTS * DOCUMENT);
    let groups = body.chunks_mut(HEAD + GROUP_DOCUMENTS * DOCUMENT);
    for (part, group) in parts.zip(groups) {
        let count = part.len() / DOCUMENT;
        group[..HEAD].copy_from_slice(&[0x00, 0x51, operation, count as u8]);
        group[HEAD..].copy_from_slice(part);
    }
}
