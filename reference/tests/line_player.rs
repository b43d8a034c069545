//! What the line's script player promises of the memory that it is lent: how far it plays where
//! the answers do not fit, what it leaves alone, and what a short wire does.

use reference::generate::{self, Kind};
use reference::line::{self, play_into, WIRE};
use reference::script;

const UNTOUCHED: u8 = 0xA5;
/// Bytes after the lent ones that must stay.
const BEYOND: usize = 64;

/// Passed over lines and bad ones, a message and its reply as copies, no last line feed.
const SHORT: &[u8] = b"# an evening\n\nstart A 140328 81 72\nstart B 140328 72 81\n   \n\
    header A 75600 21000000 1 7\nnonsense\nreceive B 75600 @1\n# on its way\nreply A 75600 @2\n\
    receive B 75600 @3\nreport A\n\nreport B";

fn wire() -> Vec<u8> {
    vec![UNTOUCHED; WIRE]
}

#[test]
fn answers_that_do_not_all_fit() {
    let mut wire = wire();
    every_length(SHORT, &mut wire);
    every_length(b"", &mut wire);
    every_length(b"\n# only a comment", &mut wire);
    every_length(b"report A", &mut wire);
    for kind in [Kind::Ordinary, Kind::BadLine, Kind::Calls, Kind::Text] {
        for seed in 0..5 {
            around_the_answers(&generate::script(kind, seed), &mut wire);
        }
    }
}

fn every_length(text: &[u8], wire: &mut [u8]) {
    let whole = script::play(text);
    for length in 0..whole.len() + 3 {
        fitting(text, &whole, length, wire);
    }
}

/// The lengths with which some more answers fit, and their neighbours.
fn around_the_answers(text: &[u8], wire: &mut [u8]) {
    let whole = script::play(text);
    let ends = (0..whole.len()).filter(|&at| whole[at] == b'\n');
    let some = ends.clone().step_by(1 + ends.count() / 20);
    for end in some.chain([whole.len()]) {
        for length in [end.saturating_sub(1), end, end + 1, end + 2] {
            fitting(text, &whole, length, wire);
        }
    }
}

/// Plays with an output of this length; `whole` is what a long enough one would get.
fn fitting(text: &[u8], whole: &[u8], length: usize, wire: &mut [u8]) {
    let mut memory = vec![UNTOUCHED; length + BEYOND];
    let played = play_into(text, &mut memory[..length], wire);
    let (read, written) = (played.read as usize, played.written as usize);
    assert!(written <= length && read <= text.len(), "{played:?}");
    let (answers, rest) = memory.split_at(written);
    assert_eq!(answers, &whole[..written]);
    assert!(rest.iter().all(|&byte| byte == UNTOUCHED));
    if length >= whole.len() {
        let end = (text.len(), whole.len(), 0);
        assert_eq!((read, written, played.stop), end);
        return;
    }
    assert_eq!(played.stop, 1);
    assert!(read == 0 || text[read - 1] == b'\n', "within a line");
    assert_eq!(script::play(&text[..read]), answers);
    let next = whole[written..].split_inclusive(|&byte| byte == b'\n');
    let next = next.map(<[u8]>::len).next().unwrap_or(0);
    assert!(written + next > length, "the next answer would fit");
}

/// Nothing is remembered, and numbers go on.
#[test]
fn no_wire_at_all() {
    let text = b"start A 140328 81 72\nstart B 140328 72 81\nheader A 75600 21000000 1 7\n\
        receive B 75600 @1\n\
        receive B 75600 01140328008100720000000100510121000000140328008100720001000700\n\
        reply A 75600 @2\nreply A 75600 02140328008100720000000100518600\nlot A 75600\n";
    let expected = "start A 00\nstart B 00\n\
        header A 00 @1 01140328008100720000000100510121000000140328008100720001000700\n\
        bad line\nreceive B 00 @2 02140328008100720000000100518600\nbad line\nreply A 00\n\
        lot A 00 @3 01140328008100720000000200518000070000000000000000000000000000000000\n";
    let mut output = vec![UNTOUCHED; 1_000];
    let played = play_into(text, &mut output, &mut []);
    let end = (text.len(), expected.len(), 0);
    let (read, written) = (played.read as usize, played.written as usize);
    assert_eq!((read, written, played.stop), end);
    let answers = String::from_utf8_lossy(&output[..written]);
    assert_eq!(answers, expected);
}

/// All is answered as by a long wire, up to a copy of what was not remembered.
#[test]
fn short_wires() {
    let lengths = [
        1, 15, 16, 17, 31, 32, 47, 48, 100, 1_000, 10_411, 10_412, 65_536, 1_048_575, 1_048_576,
    ];
    let texts = (0..10).map(|seed| generate::script(Kind::Ordinary, seed));
    for text in texts.chain([SHORT.to_vec()]) {
        let whole = script::play(&text);
        for length in lengths {
            let mut memory = vec![UNTOUCHED; length + BEYOND];
            let mut output = vec![0; 4 * whole.len() + 1_000];
            let played = play_into(&text, &mut output, &mut memory[..length]);
            assert_eq!((played.read as usize, played.stop), (text.len(), 0));
            same_until_forgotten(&whole, &output[..played.written as usize]);
            assert!(memory[length..].iter().all(|&byte| byte == UNTOUCHED));
        }
    }
}

fn same_until_forgotten(whole: &[u8], answers: &[u8]) {
    let lines = |text: &[u8]| String::from_utf8_lossy(text).into_owned();
    let (whole, answers) = (lines(whole), lines(answers));
    assert_eq!(whole.lines().count(), answers.lines().count());
    let mut pairs = whole.lines().zip(answers.lines());
    let first = pairs.find(|(expected, answer)| expected != answer);
    assert!(
        first.is_none_or(|(_, answer)| answer == "bad line"),
        "{first:?}"
    );
}

/// What lies in the wire at first does not count.
#[test]
fn any_bytes_in_the_wire() {
    let text = generate::script(Kind::Ordinary, 1);
    let expected = script::play(&text);
    for filling in [0x00, 0x01, 0xFF] {
        let mut output = vec![0; expected.len()];
        let played = play_into(&text, &mut output, &mut vec![filling; WIRE]);
        assert_eq!((played.written as usize, played.stop), (expected.len(), 0));
        assert_eq!(output, expected);
    }
}

/// Six times as long as their lines, so that the binding has to lend more.
#[test]
fn long_answers_to_short_lines() {
    let text = "start A 140328 81 72\n".to_string() + &"report A\n".repeat(250_000);
    let answers = line::play(text.as_bytes());
    assert!(answers.len() > 4 * text.len() + (4 << 20));
    assert!(answers == script::play(text.as_bytes()), "they differ");
}
