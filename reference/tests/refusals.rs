//! Random calls at two ends: a refused call changes neither its session nor the lent buffer, and
//! an unrefused one makes its time the last seen and writes no further than it says.

use reference::bodies::{EXAMPLE, NOMINAL};
use reference::session::Session;

const SEEDS: u64 = 300;
const CALLS: usize = 400;
const UNWRITTEN: u8 = 0xEE;

/// A xorshift generator.
struct Random(u64);

impl Random {
    fn below(&mut self, limit: usize) -> usize {
        self.0 ^= self.0 << 13;
        self.0 ^= self.0 >> 7;
        self.0 ^= self.0 << 17;
        (self.0.wrapping_mul(0x2545_F491_4F6C_DD1D) >> 33) as usize % limit
    }

    fn one_of<T: Copy>(&mut self, items: &[T]) -> T {
        items[self.below(items.len())]
    }
}

/// Two ends and all that they have written so far.
struct Pair {
    random: Random,
    sessions: [Session; 2],
    time: u32,
    written: Vec<Vec<u8>>,
    unrefused: usize,
}

impl Pair {
    fn new(seed: u64) -> Pair {
        let start = |own, partner| Session::start(140_328, own, partner, &[]).expect("good");
        Pair {
            random: Random(seed.wrapping_mul(0x9E37_79B9_7F4A_7C15) | 1),
            sessions: [start(81, 72), start(72, 81)],
            time: 75_600,
            written: Vec::new(),
            unrefused: 0,
        }
    }

    /// Mostly the common time, which now and then moves on.
    fn time(&mut self) -> u32 {
        self.time += self.random.one_of(&[0, 0, 0, 1, 20]);
        let odd = [0, 75_599, 83_700, 83_730, 84_599, 84_600, 86_400, u32::MAX];
        match self.random.below(30) {
            0 => self.random.one_of(&odd),
            _ => self.time,
        }
    }

    /// One of the last that were written, sometimes changed, or nothing.
    fn message(&mut self) -> Vec<u8> {
        let back = 1 + self.random.below(4);
        let at = self.written.len().checked_sub(back);
        let mut message = at.map_or(Vec::new(), |at| self.written[at].clone());
        if !message.is_empty() && self.random.below(8) == 0 {
            let at = self.random.below(message.len());
            message[at] = self
                .random
                .one_of(&[0x00, 0x01, 0x0A, 0x51, 0x72, 0x80, 0x90]);
        }
        message
    }

    /// Of good documents for the other end, or for nobody, or for nothing.
    fn part(&mut self, end: usize) -> Vec<u8> {
        let partner = [0x72, 0x81][end];
        let mut document = EXAMPLE;
        document[19] = partner;
        document[32] = self.random.one_of(&[partner, partner, partner, 0x99]);
        document[46] = self.random.one_of(&[0x01, 0x02, 0x30]);
        if self.random.below(8) == 0 {
            document[NOMINAL].fill(0);
        }
        document.repeat(self.random.one_of(&[0, 1, 1, 2, 5, 200, 201]))
    }

    fn call(&mut self) {
        let (end, time) = (self.random.below(2), self.time());
        let before = format!("{:?}", self.sessions[end]);
        let room = self
            .random
            .one_of(&[10_412, 10_412, 10_412, 10_412, 33, 16, 0]);
        let mut line = vec![UNWRITTEN; room];
        let answer = self.perform(end, time, &mut line);
        match answer {
            Err(_) => assert_eq!(before, format!("{:?}", self.sessions[end])),
            Ok(_) => assert_eq!(self.sessions[end].last_seen(), time),
        }
        let length = answer.unwrap_or(0);
        assert!(line[length..].iter().all(|&byte| byte == UNWRITTEN));
        if length > 0 {
            self.written.push(line[..length].to_vec());
        }
        self.unrefused += usize::from(answer.is_ok());
    }

    /// The written length, 0 for a call that writes nothing.
    fn perform(&mut self, end: usize, time: u32, line: &mut [u8]) -> Result<usize, u8> {
        let (message, part) = (self.message(), self.part(end));
        let number = self.random.one_of(&[1, 2, 3, 4, 0]);
        let operation = self.random.one_of(&[30, 30, 40, 31]);
        let session = &mut self.sessions[end];
        match self.random.below(40) {
            0..4 => session.send_header(time, 21_000_000, 1, number, line),
            4..9 => session.send_detail(time, operation, &part, line),
            9..12 => session.send_lot_total(time, line),
            12 => session.send_session_total(time, line),
            13..26 => session.receive(time, &message, line),
            26..39 => session.take_reply(time, &message).map(|()| 0),
            _ => session.clock(time).map(|()| 0),
        }
    }
}

#[test]
fn refused_calls_change_nothing() {
    let mut unrefused = 0;
    let mut lots = 0;
    for seed in 1..=SEEDS {
        let mut pair = Pair::new(seed);
        for _ in 0..CALLS {
            pair.call();
        }
        unrefused += pair.unrefused;
        lots += pair.sessions[0].report().received.lots + pair.sessions[1].report().received.lots;
    }
    let enough = unrefused > 5_000 && lots > 50;
    assert!(enough, "only {unrefused} unrefused calls and {lots} lots");
}
