//! A whole evening between two sessions: everything that lies in their trays is exchanged, lot by
//! lot and message by message, and both close.

use crate::bodies::{self, PRESENTED, RETURN};
use crate::line::{Evening, Side};
use crate::packed;
use crate::session::detail::{DetailCheck, DOCUMENT};
use crate::session::hours::{CLOSE, OPENING};
use crate::session::limits::Limits;
use crate::session::report::Report;
use crate::session::trays::Trays;
use crate::session::Session;

/// Seconds from one message to the next.
const STEP: u32 = 1;
const LONGEST_MESSAGE: usize = 10_412;
const REPLY: usize = 16;
const LOT_DOCUMENTS: usize = Limits::PAPER.documents as usize;

/// As many documents as one direction can carry, in 64 full lots.
pub const FULL: usize = Limits::PAPER.lots * LOT_DOCUMENTS;

/// The reports after the close, A's first. Fails with the first refusal or code, which a start
/// of the two for each other and good trays do not bring about.
pub fn evening(a: &mut Session, b: &mut Session, trays: [Trays; 2]) -> Result<[Report; 2], u8> {
    let [trays_of_a, trays_of_b] = trays;
    let mut a = Centre::new(a, trays_of_a);
    let mut b = Centre::new(b, trays_of_b);
    let mut line = Line::new();
    let mut number = 1;
    while a.has_documents() || b.has_documents() {
        line.lot(&mut a, &mut b, number)?;
        line.lot(&mut b, &mut a, number)?;
        number += 1;
    }
    line.session_total(&mut a, &mut b)?;
    line.session_total(&mut b, &mut a)?;
    a.session.clock(CLOSE)?;
    b.session.clock(CLOSE)?;
    Ok([a.session.report(), b.session.report()])
}

/// The evening as the line's exchange has it, of 0081, near, and 0072, far; the trays must be good.
pub fn of_two(check: DetailCheck, near: &FilledTrays, far: &FilledTrays) -> Evening {
    let start = |own, partner| {
        let mut session = Session::start(140_328, own, partner, &[]).expect("a good start");
        session.set_detail_check(check);
        session
    };
    let (mut a, mut b) = (start(81, 72), start(72, 81));
    let reports = evening(&mut a, &mut b, [near.lent(), far.lent()]);
    let [near_side, far_side] = reports.expect("nothing is refused").map(Side::from);
    Evening {
        code: 0,
        near_side,
        far_side,
    }
}

/// The trays of one end, as they lie there before the evening.
pub struct FilledTrays {
    pub presentations: Vec<u8>,
    pub returns: Vec<u8>,
}

/// So many good documents for a receiving entity, which is also their drawee. Random amounts make
/// the totals of any two lots differ.
pub fn trays(seed: u64, presentations: usize, returns: usize, receiving: u16) -> FilledTrays {
    let filled = |operation, count| {
        let seed = 2 * seed + u64::from(operation == RETURN);
        let documents = bodies::documents(seed, operation, count, receiving, &[receiving]);
        documents.into_flattened()
    };
    FilledTrays {
        presentations: filled(PRESENTED, presentations),
        returns: filled(RETURN, returns),
    }
}

impl FilledTrays {
    /// As the line's exchange takes them.
    pub fn both(&self) -> [&[u8]; 2] {
        [&self.presentations, &self.returns]
    }

    pub fn lent(&self) -> Trays<'_> {
        Trays {
            presentations: &self.presentations,
            returns: &self.returns,
            presentations_cursor: 0,
            returns_cursor: 0,
        }
    }
}

/// One centre of the evening and what it has to present.
struct Centre<'a> {
    session: &'a mut Session,
    trays: Trays<'a>,
}

impl<'a> Centre<'a> {
    fn new(session: &'a mut Session, trays: Trays<'a>) -> Centre<'a> {
        Centre { session, trays }
    }

    fn has_documents(&self) -> bool {
        !self.trays.next_part().is_empty()
    }

    /// Past a part that was sent.
    fn advance(&mut self, documents: usize) {
        if self.trays.next_operation() == 30 {
            self.trays.presentations_cursor += documents;
        } else {
            self.trays.returns_cursor += documents;
        }
    }
}

/// What lies between the centres, and the time that both see.
struct Line {
    time: u32,
    message: [u8; LONGEST_MESSAGE],
    reply: [u8; REPLY],
}

impl Line {
    fn new() -> Line {
        Line {
            time: OPENING,
            message: [0; LONGEST_MESSAGE],
            reply: [0; REPLY],
        }
    }

    /// The presenter's next lot, if it has documents left: as many details as the lot can take.
    fn lot(&mut self, from: &mut Centre, to: &mut Centre, number: u16) -> Result<(), u8> {
        if !from.has_documents() {
            return Ok(());
        }
        self.header(from, to, number)?;
        let mut documents = 0;
        loop {
            let count = from.trays.next_part().len() / DOCUMENT;
            if count == 0 || documents + count > LOT_DOCUMENTS {
                break;
            }
            self.detail(from, to)?;
            from.advance(count);
            documents += count;
        }
        self.lot_total(from, to)
    }

    fn header(&mut self, from: &mut Centre, to: &mut Centre, number: u16) -> Result<(), u8> {
        let (time, line) = (self.time, &mut self.message);
        let sent = from
            .session
            .send_header(time, 21_000_000, 1, number, line)?;
        self.deliver(sent, from, to)
    }

    fn detail(&mut self, from: &mut Centre, to: &mut Centre) -> Result<(), u8> {
        let (operation, part) = (from.trays.next_operation(), from.trays.next_part());
        let (time, line) = (self.time, &mut self.message);
        let sent = from.session.send_detail(time, operation, part, line)?;
        self.deliver(sent, from, to)
    }

    fn lot_total(&mut self, from: &mut Centre, to: &mut Centre) -> Result<(), u8> {
        let sent = from.session.send_lot_total(self.time, &mut self.message)?;
        self.deliver(sent, from, to)
    }

    fn session_total(&mut self, from: &mut Centre, to: &mut Centre) -> Result<(), u8> {
        let (time, line) = (self.time, &mut self.message);
        let sent = from.session.send_session_total(time, line)?;
        self.deliver(sent, from, to)
    }

    /// The message is received, and its reply taken.
    fn deliver(&mut self, sent: usize, from: &mut Centre, to: &mut Centre) -> Result<(), u8> {
        let message = &self.message[..sent];
        to.session.receive(self.time, message, &mut self.reply)?;
        from.session.take_reply(self.time, &self.reply)?;
        self.time += STEP;
        match packed::value(&self.reply[REPLY - 1..]) {
            0 => Ok(()),
            code => Err(code as u8),
        }
    }
}
