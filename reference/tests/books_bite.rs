//! The books must refuse the answers of wrong engines. The right answers come from the
//! reference; each test spoils them as one kind of wrong engine would.

use reference::books::{self, Checked};
use reference::generate::{self, Kind};
use reference::random::Random;
use reference::script;

/// The paper's document, for receiving entity 0072.
const DOCUMENT: &str = concat!(
    "0000000001000002434157140300810110280072080081011000000001500000720110",
    "00001234560100010000003000000000"
);
/// The same drawn on an entity that is not there, which the receiver refuses with 06.
const STRANGER: &str = concat!(
    "0000000001000002434157140300810110280072080081011000000001500000990110",
    "00001234560100010000003000000000"
);

const STARTS: &str = "start A 140328 81 72\nstart B 140328 72 81\n";
const HEADER: &str = "header A 75600 21000000 1 7\nreceive B 75600 @1\nreply A 75600 @2\n";

/// One lot up to its counted total, whose reply is on its way as `@6`.
fn counted_lot() -> String {
    let detail = format!("detail A 75600 30 {DOCUMENT}\nreceive B 75600 @3\nreply A 75600 @4\n");
    format!("{STARTS}{HEADER}{detail}lot A 75600\nreceive B 75600 @5\n")
}

fn answers(script: &str) -> String {
    String::from_utf8(script::play(script.as_bytes())).unwrap()
}

fn check(script: &str, output: &str) -> Result<Checked, String> {
    assert!(books::applies(script.as_bytes()), "{script}");
    books::check(script.as_bytes(), output.as_bytes())
}

fn full(script: &str) -> String {
    String::from_utf8(books::with_reports(script.as_bytes())).unwrap()
}

/// The right answers pass, and with every `right` replaced they do not, for this reason.
fn refused(script: &str, right: &str, wrong: &str, reason: &str) {
    let output = answers(script);
    assert_eq!(check(script, &output).err(), None);
    let spoiled = output.replace(right, wrong);
    assert_ne!(spoiled, output, "nothing to spoil:\n{output}");
    let error = check(script, &spoiled).expect_err("the books did not bite");
    assert!(error.contains(reason), "{error}");
}

#[test]
fn a_named_lot_is_dropped_at_the_close() {
    let script = full(&(counted_lot() + "clock A 84600\n"));
    let right = "forced 0 0 lot 7 1 15000 30";
    refused(&script, right, "forced 0 0 none", "awaited: Nothing shown");
}

#[test]
fn a_repeated_lot_total_is_counted_again() {
    let script = full(&(counted_lot() + "receive B 75600 @5\n"));
    let output = answers(&script);
    let right = "received 1 1 15000 30 open -15000 -30";
    let wrong = "received 2 2 30000 60 open -30000 -60";
    let (before, after) = output.rsplit_once(right).unwrap();
    let error = check(&script, &format!("{before}{wrong}{after}")).unwrap_err();
    assert!(
        error.contains("received: [2, 2, 30000, 60] shown"),
        "{error}"
    );
}

#[test]
fn a_detail_is_added_when_it_is_sent() {
    let detail = format!("detail A 75600 30 {STRANGER}\nreceive B 75600 @3\nreply A 75600 @4\n");
    let script = full(&format!("{STARTS}{HEADER}{detail}lot A 75600\n"));
    let reason = "awaited: Lot([7, 1, 15000, 30]) shown, Lot([7, 0, 0, 0])";
    refused(&script, "lot 7 0 0 0", "lot 7 1 15000 30", reason);
}

#[test]
fn a_lot_is_confirmed_when_its_total_is_sent() {
    let script = full(&counted_lot());
    let right = "report A presented 0 0 0 0 received 0 0 0 0 open 0 0 lot 7 1 15000 30";
    let wrong = "report A presented 1 1 15000 30 received 0 0 0 0 open 15000 30 none";
    refused(&script, right, wrong, "presented: [1, 1, 15000, 30] shown");
}

#[test]
fn a_lot_stays_named_after_the_reply() {
    let script = full(&(counted_lot() + "reply A 75600 @6\n"));
    let right = "presented 1 1 15000 30 received 0 0 0 0 open 15000 30 none";
    let wrong = "presented 1 1 15000 30 received 0 0 0 0 open 15000 30 lot 7 1 15000 30";
    refused(
        &script,
        right,
        wrong,
        "awaited: Lot([7, 1, 15000, 30]) shown",
    );
}

#[test]
fn the_position_has_the_wrong_sign() {
    let script = full(&counted_lot());
    let reason = "positions: [15000, 30] shown";
    refused(&script, "open -15000 -30", "open 15000 30", reason);
}

#[test]
fn an_engine_keeps_its_state() {
    let script = full(&(counted_lot() + "reply A 75600 @6\n"));
    let reason = "received: [0, 0, 0, 0] shown, [1, 1, 15000, 30]";
    refused(&script, "received 1 1 15000 30", "received 0 0 0 0", reason);
}

/// Reported rightly but replied to with 04: the total is refused, and yet it is counted.
#[test]
fn a_refused_total_is_counted() {
    let script = full(&counted_lot());
    let reason = "received: [1, 1, 15000, 30] shown, [0, 0, 0, 0]";
    refused(&script, "00518700\n", "00518704\n", reason);
}

#[test]
fn a_reply_is_taken_twice() {
    let script = full(&(counted_lot() + "reply A 75600 @6\nreply A 75600 @6\n"));
    let reason = "no reply to serial 3 was awaited";
    refused(&script, "reply A 35", "reply A 00", reason);
}

#[test]
fn a_message_is_sent_while_another_is_awaited() {
    let header = "header A 75600 21000000 1 7\n";
    let script = full(&format!("{STARTS}{header}{header}"));
    let bytes = "@2 01140328008100720000000200510121000000140328008100720001000700";
    let wrong = format!("header A 00 {bytes}");
    refused(&script, "header A 34", &wrong, "sent while serial 1 awaits");
}

/// The receiver books what is on the line, the presenter what it was asked to send.
#[test]
fn other_documents_are_written_than_given() {
    let script = full(&(counted_lot() + "reply A 75600 @6\n"));
    let reason = "the counted lots are not the confirmed ones";
    refused(&script, "000000015000", "000000015001", reason);
    refused(&script, "3000000000\n", "30000000ff\n", reason);
}

/// An engine that accepts a number again, and agrees with itself about it.
#[test]
fn a_number_is_counted_twice() {
    let again = format!(
        "header A 75600 21000000 1 7\nreceive B 75600 @7\nreply A 75600 @8\n\
         detail A 75600 40 {STRANGER}{DOCUMENT}\nreceive B 75600 @9\nreply A 75600 @10\n\
         lot A 75600\nreceive B 75600 @11\n"
    );
    let script = counted_lot() + "reply A 75600 @6\n" + &again.replace(" 1 7\n", " 1 8\n");
    let output = answers(&script);
    assert_eq!(check(&script, &output).err(), None);
    let (script, spoiled) = (
        script.replace(" 1 8\n", " 1 7\n"),
        output.replace("000800", "000700"),
    );
    let error = check(&script, &spoiled).unwrap_err();
    assert!(error.contains("lot 7 is counted twice"), "{error}");
}

#[test]
fn answers_that_do_not_fit_the_script() {
    let script = counted_lot();
    let output = answers(&script);
    let cut = output.rsplit_once("receive").unwrap().0;
    for (spoiled, reason) in [
        (cut.to_string(), "no answer to: receive B 75600 @5"),
        (output.clone() + "report A none\n", "an answer too many"),
        (output.replace("lot A", "lot B"), "another call answered"),
        (output.replace("start A 00", "start A 24"), "expected 00"),
        (output.replace("@5", "@6"), "the next written bytes are @5"),
    ] {
        let error = check(&script, &spoiled).unwrap_err();
        assert!(error.contains(reason), "{error}");
    }
}

/// Every digit of every report counts.
#[test]
fn any_changed_digit_of_a_report_is_seen() {
    let mut random = Random::new(7);
    for seed in 0..200 {
        let script = books::with_reports(&generate::script(Kind::BadLine, seed));
        let mut output = script::play(&script);
        let places = report_digits(&output);
        let at = random.one_of(&places);
        output[at] = b'0' + (output[at] - b'0' + 1 + random.below(9) as u8) % 10;
        assert!(books::check(&script, &output).is_err(), "byte {at}");
    }
}

fn report_digits(output: &[u8]) -> Vec<usize> {
    let mut places = Vec::new();
    let mut start = 0;
    for line in output.split_inclusive(|&byte| byte == b'\n') {
        if line.starts_with(b"report") {
            let digits = (0..line.len()).filter(|&at| line[at].is_ascii_digit());
            places.extend(digits.map(|at| start + at));
        }
        start += line.len();
    }
    places
}

#[test]
fn which_scripts_the_claim_speaks_of() {
    let applies = |script: &str| books::applies(script.as_bytes());
    assert!(applies(STARTS));
    assert!(applies(&full(STARTS)));
    assert!(applies(&format!(
        "# a comment\n\n{STARTS}report A\nlot A 0 34\n"
    )));
    for other in [
        "",
        "start A 140328 81 72\n",
        "start A 140328 81 72\nstart A 140328 81 72\n",
        "start A 140328 81 72\nstart B 150328 72 81\n",
        "start A 140328 81 72\nstart B 140328 72 82\n",
        "start A 290227 81 72\nstart B 290227 72 81\n",
        "start A 140328 81 72\nstart B 140328 72 81 10000\n",
        "clock A 0\nstart A 140328 81 72\nstart B 140328 72 81\n",
    ] {
        assert!(!applies(other), "{other}");
    }
    for line in [
        "receive A 0 00",
        "reply A 0 -",
        "start A 140328 81 72",
        "lot A",
        "report C",
    ] {
        assert!(!applies(&format!("{STARTS}{line}\n")), "{line}");
    }
}

#[test]
fn lines_that_alter_nothing_are_spoken_of() {
    for kind in [Kind::Ordinary, Kind::BadLine, Kind::Clocks] {
        for seed in 0..200 {
            assert!(books::applies(&generate::script(kind, seed)));
        }
    }
}
