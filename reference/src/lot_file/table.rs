//! The table of contents with which a lot file begins.

pub const ROWS: usize = 64;
/// The bytes of a row: order number 2, start 4, documents 4.
pub const ROW: usize = 10;
pub const TABLE: usize = ROWS * ROW;

#[derive(Clone, Copy, Debug, PartialEq, Eq)]
pub struct Row {
    pub number: u32,
    /// Of the body, counted from the slice's first byte.
    pub start: u32,
    pub documents: u32,
}

impl Row {
    pub const UNUSED: Row = Row {
        number: 0,
        start: 0,
        documents: 0,
    };

    pub fn of(bytes: &[u8; ROW]) -> Row {
        Row {
            number: high_byte_first(&bytes[..2]),
            start: high_byte_first(&bytes[2..6]),
            documents: high_byte_first(&bytes[6..]),
        }
    }

    /// The number takes the lower two of its bytes.
    pub fn write(&self, bytes: &mut [u8; ROW]) {
        bytes[..2].copy_from_slice(&self.number.to_be_bytes()[2..]);
        bytes[2..6].copy_from_slice(&self.start.to_be_bytes());
        bytes[6..].copy_from_slice(&self.documents.to_be_bytes());
    }
}

fn high_byte_first(bytes: &[u8]) -> u32 {
    bytes
        .iter()
        .fold(0, |number, &byte| number << 8 | u32::from(byte))
}

/// Those that come before the first unused row. None where the slice has no room for the table, or
/// a row behind the first unused one is not zero.
pub fn used_rows(file: &[u8]) -> Option<Vec<Row>> {
    let (rows, _) = file.get(..TABLE)?.as_chunks();
    let mut rows: Vec<Row> = rows.iter().map(Row::of).collect();
    let used = rows.iter().take_while(|row| **row != Row::UNUSED).count();
    let unused = rows.split_off(used);
    let come_last = unused.iter().all(|row| *row == Row::UNUSED);
    come_last.then_some(rows)
}
