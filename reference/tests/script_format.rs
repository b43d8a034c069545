//! The reading of scripts by the reference.

use reference::corpus::{format, memory};
use reference::script::play;

#[test]
fn every_line_has_its_answer() {
    let expected: Vec<&str> = format::lines()
        .iter()
        .map(|(_, answer)| *answer)
        .filter(|answer| !answer.is_empty())
        .collect();
    let output = String::from_utf8(play(&format::script())).expect("answers are text");
    let answers: Vec<&str> = output.lines().collect();
    for (answer, expected) in answers.iter().zip(&expected) {
        assert_eq!(answer, expected);
    }
    assert_eq!(answers.len(), expected.len());
}

#[test]
fn a_last_line_may_lack_its_line_feed() {
    assert_eq!(play(b""), b"");
    assert_eq!(play(b"\n\n"), b"");
    assert_eq!(play(b"report A"), b"report A none\n");
    assert_eq!(play(b"report A\n"), b"report A none\n");
    assert_eq!(play(b"report A\n\n# end"), b"report A none\n");
    assert_eq!(play(b"\xFF\nreport B"), b"bad line\nreport B none\n");
}

#[test]
fn what_does_not_fit_is_forgotten() {
    let output = String::from_utf8(play(&memory::script())).expect("answers are text");
    let answers: Vec<&str> = output.lines().collect();
    let copies = &answers[answers.len() - 16..];
    for (answer, number) in copies.iter().zip(memory::FIRST_COPY..) {
        let unknown = memory::FORGOTTEN.contains(&number) || number == 127;
        assert_eq!(*answer == "bad line", unknown, "{number}: {answer}");
    }
}
