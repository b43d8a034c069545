//! Two ends and what is under way between them, as far as the answers so far tell it.

use super::centre::{Awaited, Centre, Sort};
use super::draft::{Draft, Written};
use super::end::End;
use super::message::Pair;
use crate::bodies::Document;
use crate::hex;

pub const OPENING: u64 = 75_600;
pub const PRECLOSE: u64 = 83_700;
pub const CUT_OFF: u64 = 83_730;
pub const CLOSE: u64 = 84_600;
/// At and next to the two hours from which no header is sent and none is taken.
pub const HEADER_LIMITS: [u64; 5] = [PRECLOSE - 1, PRECLOSE, CUT_OFF - 1, CUT_OFF, CUT_OFF + 1];

#[rustfmt::skip]
const DATES: [u64; 14] = [
    140_328, 10_100, 310_128, 280_227, 290_200, 290_228, 310_399, 300_427, 310_528, 300_600,
    310_831, 300_999, 301_128, 311_299,
];

/// Something that an end does.
pub type Act = fn(&mut Evening, End);

pub struct Evening {
    pub draft: Draft,
    pub date: u64,
    /// Amounts and order numbers come from so few values that many of them are equal.
    pub narrow: bool,
    /// Some documents are for nothing: their nominal is zero.
    pub for_nothing: bool,
    pub centres: [Centre; 2],
}

impl Evening {
    /// Chooses the day and the entities; nothing is said yet.
    pub fn new(mut draft: Draft) -> Evening {
        let random = &mut draft.random;
        let own = [random.entity(), random.entity()];
        let own = match own {
            [one, other] if one == other => [81, 72],
            two => two,
        };
        let date = random.one_of(&DATES);
        let centres = own.map(|own| {
            let represented = (0..random.below(9)).map(|_| random.entity()).collect();
            Centre::new(own, represented, OPENING)
        });
        let narrow = random.once_in(3);
        let for_nothing = random.once_in(4);
        Evening {
            draft,
            date,
            narrow,
            for_nothing,
            centres,
        }
    }

    pub fn start_both(&mut self) {
        for end in End::BOTH {
            self.start(end);
        }
    }

    pub fn start(&mut self, end: End) {
        let (own, partner) = (self.at(end).own, self.at(end.other()).own);
        let represented = self.at(end).represented.clone();
        let entities: String = represented.iter().map(|one| format!(" {one}")).collect();
        let line = format!("start {end} {} {own} {partner}{entities}", self.date);
        if self.draft.done(&line) {
            let time = self.at(end).time;
            *self.at(end) = Centre::new(own, represented, time);
        }
    }

    pub fn at(&mut self, end: End) -> &mut Centre {
        &mut self.centres[end as usize]
    }

    /// The direction in which this end presents.
    pub fn pair(&mut self, presenter: End) -> Pair {
        Pair {
            date: self.date,
            presenting: self.at(presenter).own,
            receiving: self.at(presenter.other()).own,
        }
    }

    /// A send with its arguments after the time.
    pub fn send(&mut self, end: End, sort: Sort, arguments: &str) {
        let word = match sort {
            Sort::Header(_) => "header",
            Sort::Detail => "detail",
            Sort::Lot => "lot",
            Sort::Session => "session",
        };
        let line = format!("{word} {end} {}{arguments}", self.at(end).time);
        if let Some(message) = self.draft.write(&line) {
            let reply = None;
            self.at(end).awaited = Some(Awaited {
                sort,
                message,
                reply,
            });
        }
    }

    pub fn header(&mut self, end: End, number: u64) {
        let random = &mut self.draft.random;
        let time = random.one_of(&[21_000_000, 0, 23_595_999, 22_304_507]);
        let centre = random.one_of(&[1, 0, 9999, 417]);
        let arguments = format!(" {time} {centre} {number}");
        self.send(end, Sort::Header(number), &arguments);
    }

    pub fn detail(&mut self, end: End, operation: u8, documents: &[Document]) {
        let digits = hex::write(documents.as_flattened());
        self.send(end, Sort::Detail, &format!(" {operation:x} {digits}"));
    }

    pub fn lot(&mut self, end: End) {
        self.send(end, Sort::Lot, "");
    }

    pub fn session(&mut self, end: End) {
        self.send(end, Sort::Session, "");
    }

    /// The receiving end takes a message; `text` is what follows the time.
    pub fn receive(&mut self, end: End, text: &str) -> Option<Written> {
        let line = format!("receive {end} {} {text}", self.at(end).time);
        let reply = self.draft.write(&line)?;
        if let Some(awaited) = &mut self.at(end.other()).awaited {
            if awaited.message.bytes[8..12] == reply.bytes[8..12] {
                awaited.reply = Some(reply.clone());
            }
        }
        Some(reply)
    }

    /// The presenter takes a reply, whose bytes `text` stands for.
    pub fn reply(&mut self, end: End, text: &str, bytes: &[u8]) {
        let line = format!("reply {end} {} {text}", self.at(end).time);
        if self.draft.done(&line) {
            self.at(end).take_reply(bytes[15]);
        }
    }

    /// Hands the awaited message to the other end.
    pub fn deliver(&mut self, presenter: End) {
        if let Some(awaited) = &self.at(presenter).awaited {
            let text = format!("@{}", awaited.message.number);
            self.receive(presenter.other(), &text);
        }
    }

    /// Hands the last reply to the presenter.
    pub fn answer(&mut self, presenter: End) {
        let awaited = self.at(presenter).awaited.as_ref();
        if let Some(reply) = awaited.and_then(|awaited| awaited.reply.clone()) {
            self.reply(presenter, &format!("@{}", reply.number), &reply.bytes);
        }
    }

    pub fn exchange(&mut self, presenter: End) {
        self.deliver(presenter);
        self.answer(presenter);
    }

    pub fn clock(&mut self, end: End) {
        let line = format!("clock {end} {}", self.at(end).time);
        let answer = self.draft.say(line.as_bytes());
        self.at(end).closed = answer.ends_with("ordered") || answer.ends_with("forced");
    }

    pub fn report(&mut self, end: End) {
        self.draft.say(format!("report {end}").as_bytes());
    }

    /// One thing at a later time, then another at a time between: the second is refused if
    /// and only if the first has moved the last seen time.
    pub fn go_back(&mut self, end: End, first: Act, second: Act) {
        let now = self.at(end).time;
        self.at(end).time = now + 20;
        first(self, end);
        self.at(end).time = now + 10;
        second(self, end);
        self.at(end).time = now + 20;
    }
}
