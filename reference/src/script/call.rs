//! A line read as a call at one end.

use super::words::Words;
use super::written::Written;

/// More are a bad line; from 9 on the session refuses them.
const MOST_REPRESENTED: usize = 16;

pub enum Call {
    Start(Start),
    /// Into a lent buffer of this length.
    Write {
        call: WritingCall,
        room: usize,
    },
    Reply {
        time: u32,
        reply: Vec<u8>,
    },
    Clock {
        time: u32,
    },
    Report,
}

pub struct Start {
    pub date: u32,
    pub own: u16,
    pub partner: u16,
    pub represented: Vec<u16>,
}

pub enum WritingCall {
    Header {
        time: u32,
        hhmmsscc: u32,
        centre: u16,
        number: u16,
    },
    Detail {
        time: u32,
        operation: u8,
        documents: Vec<u8>,
    },
    Lot {
        time: u32,
    },
    Session {
        time: u32,
    },
    Receive {
        time: u32,
        message: Vec<u8>,
    },
}

/// The words after the call's name and its end. None for a bad line.
pub fn read(name: &[u8], mut words: Words, written: &Written) -> Option<Call> {
    let call = match name {
        b"start" => start(&mut words)?,
        b"reply" => reply(&mut words, written)?,
        b"clock" => clock(&mut words)?,
        b"report" => Call::Report,
        _ => Call::Write {
            call: writing(name, &mut words, written)?,
            room: words.room()?,
        },
    };
    words.are_used_up().then_some(call)
}

fn start(words: &mut Words) -> Option<Call> {
    let date = words.number_of_32_bits()?;
    let own = words.number_of_16_bits()?;
    let partner = words.number_of_16_bits()?;
    let mut represented = Vec::new();
    while !words.are_used_up() {
        represented.push(words.number_of_16_bits()?);
    }
    (represented.len() <= MOST_REPRESENTED).then_some(Call::Start(Start {
        date,
        own,
        partner,
        represented,
    }))
}

fn reply(words: &mut Words, written: &Written) -> Option<Call> {
    Some(Call::Reply {
        time: words.number_of_32_bits()?,
        reply: words.hex_or_copy(written)?,
    })
}

fn clock(words: &mut Words) -> Option<Call> {
    Some(Call::Clock {
        time: words.number_of_32_bits()?,
    })
}

/// All of these have a time first.
fn writing(name: &[u8], words: &mut Words, written: &Written) -> Option<WritingCall> {
    let time = words.number_of_32_bits()?;
    match name {
        b"header" => header(time, words),
        b"detail" => detail(time, words),
        b"lot" => Some(WritingCall::Lot { time }),
        b"session" => Some(WritingCall::Session { time }),
        b"receive" => Some(WritingCall::Receive {
            time,
            message: words.hex_or_copy(written)?,
        }),
        _ => None,
    }
}

fn header(time: u32, words: &mut Words) -> Option<WritingCall> {
    Some(WritingCall::Header {
        time,
        hhmmsscc: words.number_of_32_bits()?,
        centre: words.number_of_16_bits()?,
        number: words.number_of_16_bits()?,
    })
}

/// The documents of a detail are never a copy of what was written.
fn detail(time: u32, words: &mut Words) -> Option<WritingCall> {
    Some(WritingCall::Detail {
        time,
        operation: words.number_of_8_bits()?,
        documents: words.hex()?,
    })
}
