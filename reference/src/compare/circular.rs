//! The engine beside the circular's rules, which it no longer follows everywhere. Each of its
//! answers is set beside the call and the circular's answer to it.

use super::{answers, Difference, Play};
use crate::asked::asked;
use crate::bodies::documents_in;
use crate::script::play_by;
use crate::script::words::Words;
use crate::session::rules::Rules;
use std::borrow::Cow;
use std::ops::RangeInclusive;

/// In numbers of its own, so that a wrong hour of the reference is not left out with it.
const MARGIN: RangeInclusive<u32> = 83_700..=83_729;

/// What an answer of the engine is beside the circular's.
#[derive(Clone, Copy, Debug, PartialEq, Eq)]
pub enum Counted {
    Alike,
    Different,
    LeftOut,
}

/// This is the one place that says which answers the comparison leaves out or takes for another.
/// It leaves out
///
/// - a header that a receiver gets from 83,700 to 83,729 and that the circular answers with 10:
///   clocks that differ are now given half a minute. What the circular answers with another code
///   in these seconds, or refuses, is the same today.
/// - a detail with a document of nominal zero that gets 44, received or to be sent. 44 comes after
///   the other codes of the input and before those of the state, and 23 of a send is last, so the
///   circular must accept the detail there or give 07 or 12, or 23 to a send; the rest of the
///   answer is the same.
/// - a reply with code 44, by which such a detail gets its code at its presenter. The circular must
///   refuse it with 22, and for the code alone; today it is taken, or is 35 if nothing like it is
///   awaited. Nothing ties codes to kinds of messages, so it may come to any of them.
///
/// 44 anywhere else is a difference. It takes no answer for another.
///
/// What a call hands over stands in its line in digits, also where it is a copy.
pub fn counts_as(call: &[u8], of_circular: &[u8], of_engine: &[u8]) -> Counted {
    if is_header_in_the_margin(call, of_circular) {
        Counted::LeftOut
    } else if of_circular == of_engine {
        Counted::Alike
    } else if is_detail_with_44(call, of_circular, of_engine)
        || is_reply_with_44(call, of_circular, of_engine)
    {
        Counted::LeftOut
    } else {
        Counted::Different
    }
}

/// No other message is ever answered with 10.
fn is_header_in_the_margin(call: &[u8], of_circular: &[u8]) -> bool {
    let in_the_margin = time_received(call).is_some_and(|time| MARGIN.contains(&time));
    in_the_margin && replied(of_circular) == Some(b"10")
}

/// None for all calls but receiving.
fn time_received(call: &[u8]) -> Option<u32> {
    let mut words = Words::of(call);
    let is_receiving = words.next()? == b"receive";
    let _end = words.next()?;
    words.number_of_32_bits().filter(|_| is_receiving)
}

/// The two digits of the reply's code, none for an answer that has no reply in it.
fn replied(answer: &[u8]) -> Option<&[u8]> {
    const DIGITS: usize = 32;
    match words(answer)[..] {
        [b"receive", _, b"00", _, reply] if reply.len() == DIGITS => Some(&reply[DIGITS - 2..]),
        _ => None,
    }
}

fn words(answer: &[u8]) -> Vec<&[u8]> {
    let words = answer.trim_ascii_end().split(|&byte| byte == b' ');
    words.collect()
}

fn is_detail_with_44(call: &[u8], of_circular: &[u8], of_engine: &[u8]) -> bool {
    let today = with_44(of_circular);
    today.is_some_and(|today| today == of_engine) && has_nominal_zero(call)
}

/// The answer to a detail with 44 in place of a code that comes later or of none; not where
/// another code comes first.
fn with_44(of_circular: &[u8]) -> Option<Vec<u8>> {
    if matches!(replied(of_circular), Some(b"00" | b"07" | b"12")) {
        return Some([code_cut_off(of_circular), b"44\n"].concat());
    }
    match words(of_circular)[..] {
        [b"detail", end, b"00" | b"07" | b"12" | b"23", ..] => {
            Some([&b"detail "[..], end, b" 44\n"].concat())
        }
        _ => None,
    }
}

/// An answer up to the code at its end.
fn code_cut_off(answer: &[u8]) -> &[u8] {
    let answer = answer.trim_ascii_end();
    &answer[..answer.len() - 2]
}

/// Whether the call receives or sends a detail that has such a document.
fn has_nominal_zero(call: &[u8]) -> bool {
    let documents = match Handed::by(call) {
        Some(Handed::Message(message)) if matches!(message.get(14), Some(0x30 | 0x40)) => {
            documents_in(&message[12..])
        }
        Some(Handed::Documents(part)) => part.as_chunks().0.to_vec(),
        _ => Vec::new(),
    };
    documents.iter().any(|document| document[25..31] == [0; 6])
}

fn is_reply_with_44(call: &[u8], of_circular: &[u8], of_engine: &[u8]) -> bool {
    let is_refused = matches!(words(of_circular)[..], [b"reply", _, b"22"]);
    let is_today = |code: &[u8]| of_engine == [code_cut_off(of_circular), code, b"\n"].concat();
    is_refused && (is_today(b"00") || is_today(b"35")) && carries_44(call)
}

/// Whether the call takes a reply in which all but the code is known to the circular.
fn carries_44(call: &[u8]) -> bool {
    match Handed::by(call) {
        Some(Handed::Reply(reply)) => {
            matches!(reply[..], [.., 0x51, 0x86 | 0x87 | 0x97, 0x44])
        }
        _ => false,
    }
}

/// What a call hands over to its end.
enum Handed {
    Message(Vec<u8>),
    Documents(Vec<u8>),
    Reply(Vec<u8>),
}

impl Handed {
    /// None for other calls.
    fn by(call: &[u8]) -> Option<Handed> {
        let mut words = Words::of(call);
        let name = words.next()?;
        let (_end, _time) = (words.next()?, words.next()?);
        match name {
            b"receive" => words.hex().map(Handed::Message),
            b"reply" => words.hex().map(Handed::Reply),
            b"detail" => {
                let _operation = words.next()?;
                words.hex().map(Handed::Documents)
            }
            _ => None,
        }
    }
}

/// How far a script was compared.
#[derive(Clone, Copy, Debug, PartialEq, Eq)]
pub enum Extent {
    ToTheEnd,
    /// Up to the answer of this number, from 1, which is left out.
    UpTo(usize),
}

/// Behind an answer that is left out the two need not be in the same state, so it is the last.
pub fn compared(script: &[u8], of_engine: &[u8]) -> Result<Extent, Difference> {
    let of_circular = play_by(Rules::CIRCULAR, script);
    let mut engine = answers(of_engine);
    let mut written = Vec::new();
    let mut line = 0;
    for (call, circular) in asked(script).zip(answers(&of_circular)) {
        line += 1;
        let answer = engine.next();
        let call = in_digits(call, &written);
        let counted = answer.map(|answer| counts_as(&call, circular, answer));
        match counted.unwrap_or(Counted::Different) {
            Counted::Alike => {}
            Counted::Different => return Err(Difference::new(line, Some(circular), answer)),
            Counted::LeftOut => return Ok(Extent::UpTo(line)),
        }
        written.extend(digits_written(circular));
    }
    match engine.next() {
        None => Ok(Extent::ToTheEnd),
        more => Err(Difference::new(line + 1, None, more)),
    }
}

/// What a call wrote, as its answer has it.
fn digits_written(answer: &[u8]) -> Option<&[u8]> {
    match words(answer)[..] {
        [_, _, b"00", _, digits] => Some(digits),
        _ => None,
    }
}

/// The call with the digits of what it names as a copy, if it does; the first written is `@1`.
fn in_digits<'a>(call: &'a [u8], written: &[&[u8]]) -> Cow<'a, [u8]> {
    let copy = call.iter().position(|&byte| byte == b'@').and_then(|at| {
        let (before, copy) = call.split_at(at);
        let end = copy.iter().position(|&byte| byte == b' ');
        let (name, after) = copy.split_at(end.unwrap_or(copy.len()));
        let number: usize = std::str::from_utf8(&name[1..]).ok()?.parse().ok()?;
        let digits = written.get(number.checked_sub(1)?)?;
        Some([before, digits, after].concat())
    });
    copy.map_or(Cow::Borrowed(call), Cow::Owned)
}

/// As far as the script is compared.
pub fn difference(script: &[u8], engine: Play) -> Option<Difference> {
    compared(script, &engine(script)).err()
}
