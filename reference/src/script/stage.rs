//! The two ends of a script with what they have written, and the calls performed at them.

use super::answer;
use super::call::{self, Call, Start, WritingCall};
use super::words::{Words, MOST_ROOM};
use super::written::Written;
use crate::session::rules::Rules;
use crate::session::Session;

/// What the lent buffer is filled with before each call.
const UNWRITTEN: u8 = 0xEE;

pub struct Stage {
    /// Of every session started here.
    rules: Rules,
    a: Option<Session>,
    b: Option<Session>,
    written: Written,
}

impl Stage {
    /// Two ends with no session.
    pub fn new(rules: Rules) -> Stage {
        Stage {
            rules,
            a: None,
            b: None,
            written: Written::default(),
        }
    }

    /// Of a pair that has been started.
    pub fn sessions(&mut self) -> [&mut Session; 2] {
        let started = "both ends have a session";
        [&mut self.a, &mut self.b].map(|end| end.as_mut().expect(started))
    }

    /// None for a bad line. An answer begins with the line's own two first words.
    pub fn answer(&mut self, line: &[u8]) -> Option<String> {
        let mut words = Words::of(line);
        let (name, end) = (words.next()?, words.next()?);
        let session = match end {
            b"A" => &mut self.a,
            b"B" => &mut self.b,
            _ => return None,
        };
        let call = call::read(name, words, &self.written)?;
        let answer = perform(self.rules, session, &call, &mut self.written);
        let (name, end) = (name.escape_ascii(), end.escape_ascii());
        Some(format!("{name} {end} {answer}"))
    }
}

fn perform(
    rules: Rules,
    session: &mut Option<Session>,
    call: &Call,
    written: &mut Written,
) -> String {
    match (call, session) {
        (Call::Start(start), session) => perform_start(rules, session, start),
        (_, None) => answer::no_session(),
        (Call::Write { call, room }, Some(session)) => perform_write(session, call, *room, written),
        (Call::Reply { time, reply }, Some(session)) => {
            answer::code(session.take_reply(*time, reply))
        }
        (Call::Clock { time }, Some(session)) => {
            let code = answer::code(session.clock(*time));
            format!("{code} {}", answer::close(session.close()))
        }
        (Call::Report, Some(session)) => answer::report(&session.report()),
    }
}

/// A refused start leaves the earlier session.
fn perform_start(rules: Rules, session: &mut Option<Session>, start: &Start) -> String {
    let (own, partner, represented) = (start.own, start.partner, &start.represented);
    let started = Session::start_by(rules, start.date, own, partner, represented);
    answer::code(started.map(|fresh| *session = Some(fresh)))
}

fn perform_write(
    session: &mut Session,
    call: &WritingCall,
    room: usize,
    written: &mut Written,
) -> String {
    let mut buffer = [UNWRITTEN; MOST_ROOM];
    match write(session, call, &mut buffer[..room]) {
        Ok(length) => {
            let bytes = &buffer[..length];
            answer::written(written.add(bytes), bytes)
        }
        refused => answer::code(refused),
    }
}

/// Gives the written length or the refusal.
fn write(session: &mut Session, call: &WritingCall, line: &mut [u8]) -> Result<usize, u8> {
    match call {
        WritingCall::Header {
            time,
            hhmmsscc,
            centre,
            number,
        } => session.send_header(*time, *hhmmsscc, *centre, *number, line),
        WritingCall::Detail {
            time,
            operation,
            documents,
        } => session.send_detail(*time, *operation, documents, line),
        WritingCall::Lot { time } => session.send_lot_total(*time, line),
        WritingCall::Session { time } => session.send_session_total(*time, line),
        WritingCall::Receive { time, message } => session.receive(*time, message, line),
    }
}
