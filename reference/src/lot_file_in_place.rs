//! The calls on a lot file without a list of lots: one pass over the table tells all that a call
//! asks of it, and each byte that moves is moved once. To measure against.

use crate::lot_file::calls::Found;
use crate::lot_file::lots::{is_body, is_count, is_order_number, LAST_NUMBER};
use crate::lot_file::table::{Row, ROW, ROWS, TABLE};
use crate::lot_file_script::LotFile;
use crate::session::detail::DOCUMENT;

pub const IN_PLACE: LotFile = LotFile {
    add,
    take_out,
    find,
    check,
};

const ZEROS: [u8; TABLE] = [0; TABLE];

/// What the pass over a good table tells.
struct Contents {
    used_rows: usize,
    /// Where the last body ends.
    end: usize,
    /// The place of the row with the number that is asked for.
    at: Option<usize>,
}

impl Contents {
    /// None for a slice that breaks the rules.
    fn read(file: &[u8], asked: u32) -> Option<Contents> {
        let table: &[u8; TABLE] = file.first_chunk()?;
        let mut numbers = Numbers::default();
        let (mut used_rows, mut end, mut at) = (0, TABLE, None);
        for row in table.as_chunks().0.iter().map(Row::of) {
            if !is_order_number(row.number) {
                break;
            }
            if row.number == asked {
                at = Some(used_rows);
            }
            let good = row.start as usize == end
                && is_count(row.documents.into())
                && numbers.is_new(row.number);
            if !good {
                return None;
            }
            end += DOCUMENT * row.documents as usize;
            used_rows += 1;
        }
        let unused = ROW * used_rows..TABLE;
        let good = table[unused.clone()] == ZEROS[unused] && end <= file.len();
        good.then_some(Contents { used_rows, end, at })
    }
}

/// A bit for each order number that has been seen.
struct Numbers([u64; LAST_NUMBER as usize / 64 + 1]);

impl Default for Numbers {
    fn default() -> Numbers {
        Numbers([0; LAST_NUMBER as usize / 64 + 1])
    }
}

impl Numbers {
    /// Is seen from now on.
    fn is_new(&mut self, number: u32) -> bool {
        let (word, bit) = (number as usize / 64, 1 << (number % 64));
        let is_new = self.0[word] & bit == 0;
        self.0[word] |= bit;
        is_new
    }
}

fn rows(file: &mut [u8]) -> &mut [[u8; ROW]] {
    file[..TABLE].as_chunks_mut().0
}

pub fn check(file: &[u8]) -> u8 {
    match Contents::read(file, 0) {
        None => 25,
        Some(_) => 0,
    }
}

pub fn add(file: &mut [u8], number: u32, tray: &[u8]) -> u8 {
    let Some(contents) = Contents::read(file, number) else {
        return 25;
    };
    if !is_order_number(number) || !is_body(tray) {
        return 25;
    }
    if contents.at.is_some() {
        return 4;
    }
    let body = file[contents.end..].get_mut(..tray.len());
    let Some(body) = body.filter(|_| contents.used_rows < ROWS) else {
        return 45;
    };
    body.copy_from_slice(tray);
    let row = Row {
        number,
        start: contents.end as u32,
        documents: (tray.len() / DOCUMENT) as u32,
    };
    row.write(&mut rows(file)[contents.used_rows]);
    0
}

pub fn take_out(file: &mut [u8], number: u32) -> u8 {
    let (contents, at) = match found(file, number) {
        Err(code) => return code,
        Ok(found) => found,
    };
    let rows = rows(file);
    let taken = Row::of(&rows[at]);
    let length = taken.documents * DOCUMENT as u32;
    for later in at + 1..contents.used_rows {
        let mut row = Row::of(&rows[later]);
        row.start -= length;
        row.write(&mut rows[later - 1]);
    }
    Row::UNUSED.write(&mut rows[contents.used_rows - 1]);
    let next = (taken.start + length) as usize;
    file.copy_within(next..contents.end, taken.start as usize);
    0
}

pub fn find(file: &[u8], number: u32) -> Found {
    let at = match found(file, number) {
        Err(code) => return Found::refused(code),
        Ok((_, at)) => at,
    };
    let row = Row::of(&file.as_chunks().0[at]);
    Found {
        code: 0,
        start: row.start.into(),
        documents: row.documents.into(),
    }
}

/// And the place of the lot's row.
fn found(file: &[u8], number: u32) -> Result<(Contents, usize), u8> {
    let contents = Contents::read(file, number).ok_or(25)?;
    if !is_order_number(number) {
        return Err(25);
    }
    let at = contents.at.ok_or(46)?;
    Ok((contents, at))
}
