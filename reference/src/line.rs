//! The bindings to what the line exports for C: the detail check that its driver calls, the
//! script player, the calendar, the commissions, the check digits and the lot file for the
//! comparison, and the evening for measurements.

use crate::calendar::compensation::Compensation;
use crate::lot_file::calls::Found;
use crate::session::report::{AwaitedTotal, Report};
use crate::session::totals::{SessionTotals, Totals};
use crate::session::Close;
use crate::tariff::commission::Commissioned;
use crate::tariff::tray::Filled;
use crate::Checked;
use std::cell::RefCell;

/// How far a script was played.
#[repr(C)]
#[derive(Clone, Copy, Debug, PartialEq, Eq)]
pub struct Played {
    /// Bytes of the script; with stop 1 the line that was not played begins here.
    pub read: u64,
    pub written: u64,
    /// 0 at the script's end, 1 where the answer to the next line does not fit.
    pub stop: u8,
}

/// The accepted lots of a direction, as one end reports them.
#[repr(C)]
#[derive(Clone, Copy, Debug, Default, PartialEq, Eq)]
pub struct Sums {
    pub lots: u64,
    pub documents: u64,
    pub nominal: u64,
    pub commission: u64,
}

/// The report of one end after its close.
#[repr(C)]
#[derive(Clone, Copy, Debug, Default, PartialEq, Eq)]
pub struct Side {
    pub presented: Sums,
    pub received: Sums,
    /// 0 open, 1 in order, 2 forced.
    pub close: u8,
    /// 0 neither, 1 a lot total, 2 a session total.
    pub awaited: u8,
    /// Of the lot whose total is awaited, which is not among the accepted ones; else 0.
    pub lot_number: u64,
    pub lot: Sums,
    pub nominal_position: i64,
    pub commission_position: i64,
}

impl Sums {
    fn of(lots: u64, totals: Totals) -> Sums {
        Sums {
            lots,
            documents: totals.documents,
            nominal: totals.nominal,
            commission: totals.commission,
        }
    }
}

impl From<SessionTotals> for Sums {
    fn from(of_session: SessionTotals) -> Sums {
        Sums::of(of_session.lots, of_session.totals)
    }
}

impl From<Report> for Side {
    fn from(report: Report) -> Side {
        let (awaited, lot_number, lot) = match report.awaited {
            AwaitedTotal::None => (0, 0, Sums::default()),
            AwaitedTotal::Lot(lot) => (1, lot.number.into(), Sums::of(0, lot.totals)),
            AwaitedTotal::Session => (2, 0, Sums::default()),
        };
        Side {
            presented: report.presented.into(),
            received: report.received.into(),
            close: match report.close {
                Close::Open => 0,
                Close::Ordered => 1,
                Close::Forced => 2,
            },
            awaited,
            lot_number,
            lot,
            nominal_position: report.nominal_position,
            commission_position: report.commission_position,
        }
    }
}

/// What an evening gives; both sides are 0 unless the code is 0.
#[repr(C)]
#[derive(Clone, Copy, Debug, Default, PartialEq, Eq)]
pub struct Evening {
    pub code: u8,
    pub near_side: Side,
    pub far_side: Side,
}

unsafe extern "C" {
    fn line_check_detail(
        body: *const u8,
        body_len: usize,
        own: u32,
        represented: *const u16,
        represented_len: usize,
    ) -> Checked;

    fn line_play_script(
        script: *const u8,
        script_len: usize,
        output: *mut u8,
        output_len: usize,
        wire: *mut u8,
        wire_len: usize,
    ) -> Played;

    fn line_exchange(
        near_presentations: *const u8,
        near_presentations_len: usize,
        near_returns: *const u8,
        near_returns_len: usize,
        far_presentations: *const u8,
        far_presentations_len: usize,
        far_returns: *const u8,
        far_returns_len: usize,
    ) -> Evening;

    fn line_next_days(
        unworked: *const u16,
        unworked_len: usize,
        days: *mut u16,
        days_len: usize,
    ) -> u8;

    fn line_compensation_date(date: u32) -> Compensation;

    fn line_commission(
        tariff: *const u32,
        tariff_len: usize,
        key: u32,
        nominal: u64,
        typed: u64,
    ) -> Commissioned;

    fn line_fill_commissions(
        tariff: *const u32,
        tariff_len: usize,
        tray: *mut u8,
        tray_len: usize,
    ) -> Filled;

    fn line_lot_file_add(
        file: *mut u8,
        file_len: usize,
        number: u32,
        tray: *const u8,
        tray_len: usize,
    ) -> u8;

    fn line_lot_file_take_out(file: *mut u8, file_len: usize, number: u32) -> u8;

    fn line_lot_file_find(file: *const u8, file_len: usize, number: u32) -> Found;

    fn line_lot_file_check(file: *const u8, file_len: usize) -> u8;

    // SAFETY: nothing is lent, and any numbers may be passed; so with the two below.
    safe fn line_check_number(number: u64, digit: u8) -> u8;

    safe fn line_check_branch(number: u64, digit: u8) -> u8;

    safe fn line_check_account(number: u64, digit: u8) -> u8;
}

pub fn check(body: &[u8], own: u16, represented: &[u16]) -> Checked {
    // SAFETY: both pointers are good for reading the stated number of items during the call,
    // and the function neither writes nor keeps them.
    unsafe {
        line_check_detail(
            body.as_ptr(),
            body.len(),
            u32::from(own),
            represented.as_ptr(),
            represented.len(),
        )
    }
}

/// Of 0081, near, and 0072, far; each gives its presentations and its returns.
pub fn exchange(near: [&[u8]; 2], far: [&[u8]; 2]) -> Evening {
    // SAFETY: all pointers are good for reading the stated number of bytes during the call,
    // and the function neither writes nor keeps them.
    unsafe {
        line_exchange(
            near[0].as_ptr(),
            near[0].len(),
            near[1].as_ptr(),
            near[1].len(),
            far[0].as_ptr(),
            far[0].len(),
            far[1].as_ptr(),
            far[1].len(),
        )
    }
}

/// Fills the first 366 places, or gives a code and changes none.
pub fn next_days(unworked: &[u16], days: &mut [u16]) -> u8 {
    // SAFETY: the pointers are aligned, not null even where a slice is empty, and good for the
    // stated number of items during the call, the second also for writing; the two stretches lie
    // apart, and the function keeps neither of them.
    unsafe {
        line_next_days(
            unworked.as_ptr(),
            unworked.len(),
            days.as_mut_ptr(),
            days.len(),
        )
    }
}

pub fn compensation_date(date: u32) -> Compensation {
    // SAFETY: a number goes in and numbers come out.
    unsafe { line_compensation_date(date) }
}

pub fn commission(tariff: &[u32], key: u32, nominal: u64, typed: u64) -> Commissioned {
    // SAFETY: the pointer is aligned, not null even where the slice is empty, and good for reading
    // the stated number of items during the call; the function neither writes nor keeps them.
    unsafe { line_commission(tariff.as_ptr(), tariff.len(), key, nominal, typed) }
}

/// Writes the commissions of all documents, or gives a code and changes none.
pub fn fill_commissions(tariff: &[u32], tray: &mut [u8]) -> Filled {
    // SAFETY: the pointers are aligned, not null even where a slice is empty, and good for the
    // stated number of items during the call, the second also for writing; the two stretches lie
    // apart, and the function keeps neither of them.
    unsafe { line_fill_commissions(tariff.as_ptr(), tariff.len(), tray.as_mut_ptr(), tray.len()) }
}

pub fn check_number(number: u64, digit: u8) -> u8 {
    line_check_number(number, digit)
}

pub fn check_branch(number: u64, digit: u8) -> u8 {
    line_check_branch(number, digit)
}

pub fn check_account(number: u64, digit: u8) -> u8 {
    line_check_account(number, digit)
}

/// Puts the tray's documents behind the last body, or gives a code and changes nothing.
pub fn lot_file_add(file: &mut [u8], number: u32, tray: &[u8]) -> u8 {
    // SAFETY: the pointers are not null even where a slice is empty, and good for the stated number
    // of bytes during the call, the first also for writing; the two stretches lie apart, and the
    // function keeps neither of them.
    unsafe {
        line_lot_file_add(
            file.as_mut_ptr(),
            file.len(),
            number,
            tray.as_ptr(),
            tray.len(),
        )
    }
}

/// Moves later lots down, or gives a code and changes nothing.
pub fn lot_file_take_out(file: &mut [u8], number: u32) -> u8 {
    // SAFETY: the pointer is not null even where the slice is empty, and good for reading and
    // writing the stated number of bytes during the call; the function does not keep it.
    unsafe { line_lot_file_take_out(file.as_mut_ptr(), file.len(), number) }
}

pub fn lot_file_find(file: &[u8], number: u32) -> Found {
    // SAFETY: the pointer is not null even where the slice is empty, and good for reading the
    // stated number of bytes during the call; the function neither writes nor keeps them.
    unsafe { line_lot_file_find(file.as_ptr(), file.len(), number) }
}

pub fn lot_file_check(file: &[u8]) -> u8 {
    // SAFETY: as for finding a lot.
    unsafe { line_lot_file_check(file.as_ptr(), file.len()) }
}

/// Plays as far as the answers fit in `output`. `wire` is where written bytes are remembered.
pub fn play_into(script: &[u8], output: &mut [u8], wire: &mut [u8]) -> Played {
    // SAFETY: the pointers are good for the stated number of bytes during the call, the last two
    // also for writing, the three stretches lie apart, and the function keeps none of them.
    unsafe {
        line_play_script(
            script.as_ptr(),
            script.len(),
            output.as_mut_ptr(),
            output.len(),
            wire.as_mut_ptr(),
            wire.len(),
        )
    }
}

/// As much as the player needs to remember what the format asks.
pub const WIRE: usize = 2_097_152;
/// More than any script of the tests has for answer.
const MOST_OUTPUT: usize = 1 << 30;

thread_local! {
    static MEMORY: RefCell<Memory> = RefCell::new(Memory::default());
}

/// All answers to a script.
pub fn play(script: &[u8]) -> Vec<u8> {
    MEMORY.with_borrow_mut(|memory| memory.play(script))
}

/// What a thread lends to the player, script after script, with what the last one left in it.
#[derive(Default)]
struct Memory {
    output: Vec<u8>,
    wire: Vec<u8>,
}

impl Memory {
    fn play(&mut self, script: &[u8]) -> Vec<u8> {
        let generous = 4 * script.len() + (4 << 20);
        self.output.resize(self.output.len().max(generous), 0);
        self.wire.resize(WIRE, 0);
        loop {
            let played = play_into(script, &mut self.output, &mut self.wire);
            if played.stop == 0 {
                return self.output[..played.written as usize].to_vec();
            }
            let longer = 2 * self.output.len();
            assert!(longer <= MOST_OUTPUT, "the answers never fit");
            self.output.resize(longer, 0);
        }
    }
}
