//! A line of a script as the books see it. Times and rooms are read but not kept: they matter
//! only through refusals, which the answers tell.

use crate::asked::LONGEST_LINE;
use crate::hex;

pub const END_NAMES: [&str; 2] = ["A", "B"];
const MOST_ROOM: u64 = 10_412;

pub struct Line {
    /// 0 for A, 1 for B.
    pub end: usize,
    pub name: String,
    pub call: Call,
}

pub enum Call {
    Start(Start),
    Header { number: u64 },
    Detail { operation: u64, documents: Vec<u8> },
    Lot,
    Session,
    Receive(Handed),
    Reply(Handed),
    Clock,
    Report,
}

/// The number after the `@`, none for bytes given as such.
pub type Handed = Option<u64>;

pub struct Start {
    date: u64,
    own: u64,
    partner: u64,
    represented: Vec<u64>,
}

impl Call {
    /// No second start, and no bytes but copies.
    pub fn is_within_the_claim(&self) -> bool {
        !matches!(
            self,
            Call::Start(_) | Call::Receive(None) | Call::Reply(None)
        )
    }

    /// Bytes that are not remembered make a bad line, which is no call; nothing else does.
    pub fn may_be_forgotten(&self) -> Result<(), String> {
        match self {
            Call::Receive(_) | Call::Reply(_) => Ok(()),
            _ => Err("a good line was answered as a bad one".into()),
        }
    }
}

/// None for a line that cannot be read.
pub fn read(line: &[u8]) -> Option<Line> {
    let text = std::str::from_utf8(line).ok()?;
    let words: Vec<&str> = text.split(' ').filter(|word| !word.is_empty()).collect();
    let [name, end, arguments @ ..] = words.as_slice() else {
        return None;
    };
    let call = match *name {
        "start" => start(arguments)?,
        "report" if arguments.is_empty() => Call::Report,
        name => timed(name, arguments)?,
    };
    let is_short = line.len() <= LONGEST_LINE;
    is_short.then_some(Line {
        end: END_NAMES.iter().position(|name| name == end)?,
        name: name.to_string(),
        call,
    })
}

fn start(words: &[&str]) -> Option<Call> {
    let numbers: Option<Vec<u64>> = words.iter().map(|word| number(word)).collect();
    match numbers?.as_slice() {
        [date, own, partner, represented @ ..] => Some(Call::Start(Start {
            date: *date,
            own: *own,
            partner: *partner,
            represented: represented.to_vec(),
        })),
        _ => None,
    }
}

/// The calls whose first argument is the time; the last may be the room.
fn timed(name: &str, words: &[&str]) -> Option<Call> {
    let (time, words) = words.split_first()?;
    number(time)?;
    let (call, rest) = match (name, words) {
        ("header", [time, centre, order, rest @ ..]) => (header(time, centre, order)?, rest),
        ("detail", [operation, digits, rest @ ..]) => (detail(operation, digits)?, rest),
        ("lot", rest) => (Call::Lot, rest),
        ("session", rest) => (Call::Session, rest),
        ("receive", [bytes, rest @ ..]) => (Call::Receive(handed(bytes)?), rest),
        ("reply", [bytes]) => return Some(Call::Reply(handed(bytes)?)),
        ("clock", []) => return Some(Call::Clock),
        _ => return None,
    };
    let room_holds = match rest {
        [] => true,
        [room] => number(room)? <= MOST_ROOM,
        _ => false,
    };
    room_holds.then_some(call)
}

fn header(time: &str, centre: &str, order: &str) -> Option<Call> {
    number(time)?;
    number(centre)?;
    let number = number(order)?;
    Some(Call::Header { number })
}

fn detail(operation: &str, digits: &str) -> Option<Call> {
    Some(Call::Detail {
        operation: number(operation)?,
        documents: hex::read(digits)?,
    })
}

fn handed(word: &str) -> Option<Handed> {
    match word.strip_prefix('@') {
        Some(digits) => number(digits).map(Some),
        None => hex::read(word).map(|_| None),
    }
}

fn number(word: &str) -> Option<u64> {
    let is_number = word.len() <= 20 && word.bytes().all(|sign| sign.is_ascii_digit());
    word.parse().ok().filter(|_| is_number)
}

/// Both good, of one date, own and partner exchanged.
pub fn starts_fit(one: &Call, other: &Call) -> bool {
    match (one, other) {
        (Call::Start(one), Call::Start(other)) => {
            let exchanged = (one.own, one.partner) == (other.partner, other.own);
            exchanged && one.date == other.date && one.is_good() && other.is_good()
        }
        _ => false,
    }
}

impl Start {
    fn is_good(&self) -> bool {
        let entities = [self.own, self.partner];
        let within = |entities: &[u64]| entities.iter().all(|&entity| entity <= 9999);
        self.own != self.partner
            && within(&entities)
            && within(&self.represented)
            && self.represented.len() <= 8
            && is_date(self.date)
    }
}

fn is_date(date: u64) -> bool {
    let (day, month, year) = (date / 10_000, date / 100 % 100, date % 100);
    let last = match month {
        2 if year % 4 == 0 => 29,
        2 => 28,
        4 | 6 | 9 | 11 => 30,
        1..=12 => 31,
        _ => 0,
    };
    (1..=last).contains(&day)
}
