//! Times the receipt of full details, 200 documents in 10,412 bytes, against the detail check of
//! their bodies alone. The line exports no receipt: of it only a detail's whole way is shown,
//! sent, received and replied to, with its share of the lot's header and total.

use reference::exchange::{of_two, trays, FilledTrays};
use reference::line::{self, Evening};
use reference::session::detail::DetailCheck;
use reference::session::Session;
use reference::timing::{in_turn, time, Run, Times};
use reference::{plain, tuned, Checked};

const SAMPLES: usize = 2_001;
const ENVELOPE: usize = 12;
const DETAIL: usize = 10_412;
/// As many as fill a lot.
const DETAILS: usize = 13;
const TIME: u32 = 75_600;

type Check = fn(&[u8], u16, &[u16]) -> Checked;

/// The trays of a full lot and of none, the lot's header and its details, one after the other.
struct Work {
    lot: FilledTrays,
    none: FilledTrays,
    header: Vec<u8>,
    details: Vec<u8>,
}

fn main() {
    let work = Work::new();
    let mut runs = Vec::new();
    for (check, alone) in [
        (DetailCheck::PLAIN, plain::check as Check),
        (DetailCheck::TUNED, tuned::check),
    ] {
        runs.push(work.checked(alone));
        runs.extend(work.way(move |near, far| of_two(check, near, far)));
        runs.push(work.received(check));
    }
    runs.push(work.checked(line::check));
    runs.extend(work.way(|near, far| line::exchange(near.both(), far.both())));
    let times = in_turn(SAMPLES, runs);
    println!("a full detail, {SAMPLES} samples of {DETAILS}, the least; ratios to the check");
    println!("                 check     receipt  by medians  whole way");
    for (name, row) in ["plain", "tuned", "line"].iter().zip(times.chunks(4)) {
        show(name, row);
    }
}

/// Check, lot, empty evening and, where there is one, receipt.
fn show(name: &str, row: &[Times]) {
    let each: Vec<Times> = row.iter().map(|times| times.for_each(DETAILS)).collect();
    let check = each[0];
    let [receipt, median] = match each.get(3) {
        Some(receipt) => [receipt.least / check.least, receipt.median / check.median]
            .map(|ratio| format!("{ratio:.3}")),
        None => ["-", "-"].map(String::from),
    };
    let way = each[1].beyond(each[2]).least / check.least;
    let check = check.least;
    println!("  {name:<8}{check:>9.0} ns  {receipt:>10}  {median:>10}  {way:>9.3}");
}

impl Work {
    fn new() -> Work {
        let lot = trays(1, 200 * DETAILS, 0, 72);
        let none = trays(2, 0, 0, 81);
        let mut messages = messages(&lot);
        let header = messages.remove(0);
        assert!(messages.iter().all(|message| message.len() == DETAIL));
        Work {
            lot,
            none,
            header,
            details: messages.concat(),
        }
    }

    fn checked(&self, check: Check) -> Run<'_> {
        let bodies = self
            .details
            .chunks(DETAIL)
            .map(|detail| &detail[ENVELOPE..]);
        let check_all = move || bodies.clone().map(|body| check(body, 72, &[]).code).max();
        assert_eq!(check_all(), Some(0));
        Box::new(move || time(1, &check_all))
    }

    /// An evening of the lot, and one of none.
    fn way<'a>(
        &'a self,
        evening: impl Fn(&FilledTrays, &FilledTrays) -> Evening + Copy + 'a,
    ) -> [Run<'a>; 2] {
        let received = evening(&self.lot, &self.none).far_side.received;
        assert_eq!((received.lots, received.documents), (1, 2_600));
        [
            Box::new(move || time(1, || evening(&self.lot, &self.none))),
            Box::new(move || time(1, || evening(&self.none, &self.none))),
        ]
    }

    fn received(&self, check: DetailCheck) -> Run<'_> {
        let mut ready = Session::start(140_328, 72, 81, &[]).expect("a good start");
        ready.set_detail_check(check);
        let mut reply = [0; 16];
        ready
            .receive(TIME, &self.header, &mut reply)
            .expect("a header");
        Box::new(move || {
            let mut session = ready.clone();
            let all = || {
                for detail in self.details.chunks(DETAIL) {
                    session.receive(TIME, detail, &mut reply).expect("a detail");
                }
            };
            let time = time(1, all);
            assert_eq!(session.running_receiving().documents, 200 * DETAILS as u64);
            time
        })
    }
}

/// The header and the details of the lot, as its presenter sends them.
fn messages(lot: &FilledTrays) -> Vec<Vec<u8>> {
    let start = |own, partner| Session::start(140_328, own, partner, &[]).expect("a good start");
    let (mut near, mut far) = (start(81, 72), start(72, 81));
    let (mut line, mut reply) = ([0; DETAIL], [0; 16]);
    let mut messages = Vec::new();
    let mut deliver = |near: &mut Session, line: &[u8]| {
        far.receive(TIME, line, &mut reply).expect("a message");
        near.take_reply(TIME, &reply).expect("its reply");
        messages.push(line.to_vec());
    };
    let sent = near.send_header(TIME, 21_000_000, 1, 1, &mut line);
    deliver(&mut near, &line[..sent.expect("a header")]);
    for part in lot.presentations.chunks(200 * 51) {
        let sent = near.send_detail(TIME, 30, part, &mut line);
        deliver(&mut near, &line[..sent.expect("a detail")]);
    }
    messages
}
