//! Both comparisons must find a wrong answer, that with the circular's rules up to the first it
//! leaves out, and the shrinker must leave little of its script.

use reference::compare::circular::{self, Extent};
use reference::compare::{self, Play};
use reference::generate::{self, Kind};
use reference::open_points::notation;
use reference::session::rules::Rules;
use reference::{books, script};

/// Says 35 where the paper says 34.
fn takes_34_for_35(text: &[u8]) -> Vec<u8> {
    replaced(text, " 34\n", " 35\n")
}

/// Replies 00 to a lot total that has been refused with 04.
fn accepts_a_duplicate(text: &[u8]) -> Vec<u8> {
    replaced(text, "518704\n", "518700\n")
}

fn forgets_the_last_line_feed(text: &[u8]) -> Vec<u8> {
    let mut output = script::play(text);
    output.pop();
    output
}

fn stops_before_the_preclose(text: &[u8]) -> Vec<u8> {
    stopping(83_699, text)
}

fn stops_after_the_cut_off(text: &[u8]) -> Vec<u8> {
    stopping(83_731, text)
}

/// Today's rules with another cut-off.
fn stopping(cut_off: u32, text: &[u8]) -> Vec<u8> {
    let mut rules = Rules::TODAY;
    rules.cut_off = cut_off;
    script::play_by(rules, text)
}

fn knows_no_44(text: &[u8]) -> Vec<u8> {
    let mut rules = Rules::TODAY;
    rules.knows_44 = false;
    script::play_by(rules, text)
}

fn takes_06_for_44(text: &[u8]) -> Vec<u8> {
    replaced(text, "518606\n", "518644\n")
}

fn replaced(text: &[u8], from: &str, to: &str) -> Vec<u8> {
    let output = String::from_utf8(script::play(text)).unwrap();
    output.replace(from, to).into_bytes()
}

fn differs_from_today(text: &[u8], wrong: Play) -> bool {
    compare::difference(text, script::play, wrong).is_some()
}

fn differs_from_the_circular(text: &[u8], wrong: Play) -> bool {
    circular::difference(text, wrong).is_some()
}

const COMPARISONS: [fn(&[u8], Play) -> bool; 2] = [differs_from_today, differs_from_the_circular];

/// The shortest script for the first seed that shows the fault.
fn shortest(kind: Kind, differs: impl Fn(&[u8]) -> bool) -> String {
    let scripts = (0..200).map(|seed| generate::script(kind, seed));
    let found = scripts.into_iter().find(|text| differs(text));
    let short = compare::shortest(&found.expect("no seed shows the fault"), &differs);
    assert!(differs(&short));
    String::from_utf8(short).unwrap()
}

#[test]
fn a_wrong_refusal_needs_a_start_and_two_sends() {
    for differs in COMPARISONS {
        let short = shortest(Kind::BadLine, |text| differs(text, takes_34_for_35));
        assert_eq!(short.lines().count(), 3, "{short}");
    }
}

/// Two lots of three messages, and the start of the end that receives them.
#[test]
fn a_wrong_code_needs_two_lots() {
    for differs in COMPARISONS {
        let short = shortest(Kind::Ordinary, |text| differs(text, accepts_a_duplicate));
        println!("{short}");
        assert!(short.lines().count() <= 7, "{short}");
    }
}

/// Where the bytes must stay numbers, those of an exchange are taken out together.
#[test]
fn numbers_move_up() {
    let wrong = |text: &[u8]| replaced(text, " lot ", " lot 1");
    let fails = |text: &[u8]| books::applies(text) && books::check(text, &wrong(text)).is_err();
    let script = books::with_reports(&generate::script(Kind::Ordinary, 1));
    let short = String::from_utf8(compare::shortest(&script, &fails)).unwrap();
    println!("{short}");
    assert_eq!(short.lines().count(), 7, "{short}");
}

#[test]
fn a_missing_line_feed_is_seen() {
    for differs in COMPARISONS {
        let wrong = forgets_the_last_line_feed;
        let short = shortest(Kind::Text, |text| differs(text, wrong));
        assert_eq!(short.lines().count(), 1, "{short}");
    }
}

#[test]
fn the_first_difference_is_named() {
    let difference = compare::between(b"one\ntwo\nthree\n", b"one\n2\n3\n").unwrap();
    assert_eq!(
        (difference.line, difference.engine.as_slice()),
        (2, b"2\n".as_slice())
    );
    let difference = compare::between(b"one\ntwo\n", b"one\n").unwrap();
    assert_eq!((difference.line, difference.engine.len()), (2, 0));
    assert_eq!(compare::between(b"one\n", b"one\n"), None);
}

/// A call to B of a message in the notation of the open points.
fn receive(time: &str, message: &str) -> String {
    format!("receive B {time} {}\n", digits(message))
}

fn digits(bytes: &str) -> String {
    notation::hex(&notation::bytes(bytes))
}

/// A send of documents at A, with what follows them.
fn send(documents: &str, room: &str) -> String {
    format!("detail A 75600 30 {}{room}\n", digits(documents))
}

fn reply(bytes: &str) -> String {
    format!("reply A 75600 {}\n", digits(bytes))
}

const START: &str = "start B 140328 72 81\n";
const HEADER: &str = "$E(1)+$HDR(7)";
const START_A: &str = "start A 140328 81 72\n";
const SEND_HEADER: &str = "header A 75600 21000000 1 7\n";

/// How far the answers of a wrong engine are compared with the circular's, or where they differ.
fn extent(text: &str, wrong: impl Fn(&[u8]) -> Vec<u8>) -> Result<Extent, usize> {
    let compared = circular::compared(text.as_bytes(), &wrong(text.as_bytes()));
    compared.map_err(|difference| difference.line)
}

#[test]
fn a_header_within_the_margin_is_left_out() {
    for time in ["83700", "83729", "  0000083715"] {
        let text = format!("# late\n{START}\n{}report B\n", receive(time, HEADER));
        assert_eq!(extent(&text, script::play), Ok(Extent::UpTo(2)));
        let circular = script::play_by(Rules::CIRCULAR, text.as_bytes());
        assert!(compare::between(&circular, &script::play(text.as_bytes())).is_some());
    }
}

#[test]
fn the_seconds_beside_the_margin_are_compared() {
    for (time, wrong) in [
        ("83699", stops_before_the_preclose as Play),
        ("83730", stops_after_the_cut_off),
    ] {
        let text = format!("{START}{}", receive(time, HEADER));
        assert_eq!(extent(&text, script::play), Ok(Extent::ToTheEnd));
        assert_eq!(extent(&text, wrong), Err(2));
    }
}

#[test]
fn other_answers_within_the_margin_are_compared() {
    let open = receive("83699", HEADER);
    for (message, right, wrong) in [
        ("$E(2)+$HDR(8)", "8607\n", "8610\n"),
        ("$E(2)+$HDR(0)", "8601\n", "8610\n"),
        ("$E(2)+$EX", "8600\n", "8610\n"),
        ("$E(4)+$HDR(8)", " 35\n", " 21\n"),
    ] {
        let text = format!("{START}{open}{}", receive("83700", message));
        assert_eq!(extent(&text, script::play), Ok(Extent::ToTheEnd));
        let last = &played(&text)[2];
        assert!(last.ends_with(right), "{last}");
        let spoiled = spoiled(&text, 3, &last.replace(right, wrong));
        assert_eq!(extent(&text, |_| spoiled.clone()), Err(3), "{message}");
    }
}

/// The circular and today answer the last call but one so, and it is left out.
fn left_out(text: &str, of_circular: &str, of_today: &str) {
    let circular = lines(script::play_by(Rules::CIRCULAR, text.as_bytes()));
    let today = played(text);
    let at = today.len() - 1;
    for (answer, expected) in [(&circular[at - 1], of_circular), (&today[at - 1], of_today)] {
        assert!(answer.contains(expected), "{answer}");
    }
    assert_eq!(extent(text, script::play), Ok(Extent::UpTo(at)));
}

/// Accepted by the circular, or refused because of the state.
#[test]
fn a_received_detail_for_nothing_is_left_out() {
    let header = receive("75600", HEADER);
    let details = (2..=14).map(|n| receive("75600", &format!("$E({n})+(00513004+$D*4)*50")));
    let full = header.clone() + &details.collect::<String>();
    for (before, serial, of_circular) in [
        ("", 1, "518607\n"),
        (&header, 2, "518600\n"),
        (&full, 15, "518612\n"),
    ] {
        for body in ["$EX[30:000000000000]", "$EX[3:40][30:000000000000]"] {
            let detail = receive("75600", &format!("$E({serial})+{body}"));
            let text = format!("{START}{before}{detail}report B\n");
            left_out(&text, of_circular, "518644\n");
        }
    }
}

#[test]
fn a_detail_for_nothing_that_is_to_be_sent_is_left_out() {
    let open = SEND_HEADER.to_string() + &reply("$R(1,86,0)");
    let details = (2..=14).map(|n| send("$D*200", "") + &reply(&format!("$R({n},86,0)")));
    let full = open.clone() + &details.collect::<String>();
    for (before, room, of_circular) in [
        ("", "", "detail A 07\n"),
        (&open, "", "detail A 00 @2 "),
        (&open, " 66", "detail A 23\n"),
        (&full, "", "detail A 12\n"),
    ] {
        let detail = send("$D[26:000000000000]", room);
        let text = format!("{START_A}{before}{detail}report A\n");
        left_out(&text, of_circular, "detail A 44\n");
    }
}

/// It may come to any message, also too late.
#[test]
fn a_reply_with_44_is_left_out() {
    for (bytes, of_today) in [
        ("$R(1,86,44)", "reply A 00\n"),
        ("$R(1,86,44)[13:FF]", "reply A 00\n"),
        ("$R(2,86,44)", "reply A 35\n"),
        ("$R(1,97,44)", "reply A 35\n"),
    ] {
        let text = format!("{START_A}{SEND_HEADER}{}report A\n", reply(bytes));
        left_out(&text, "reply A 22\n", of_today);
    }
}

/// The answer to the last call is spoiled, and both comparisons find it.
fn spoiled_last(text: &str, wrong: impl Fn(&str) -> String) {
    let right = played(text);
    let at = right.len();
    let spoiled = spoiled(text, at, &wrong(&right[at - 1]));
    assert_eq!(extent(text, |_| spoiled.clone()), Err(at), "{text}");
    let difference = compare::between(&script::play(text.as_bytes()), &spoiled);
    assert_eq!(difference.map(|difference| difference.line), Some(at));
}

/// To a detail that has no such document or gets another code first, and to other messages.
#[test]
fn a_wrong_44_to_a_message_is_seen() {
    for message in [
        "$E(2)+$EX",
        "$E(2)+$EX[48:00000000]",
        "$E(2)+$EX[30:000000000000][36:0073]",
        "$E(2)+00513002+$D[26:000000000000]+$D[32:0073]",
        "$E(2)+00513002+$D[26:000000000000]+$D[26:0A]",
        "$E(2)+$EX[30:000000000000][22:53]",
        "$E(2)+00513004+$D[26:000000000000]*4+$EX[3:40]",
        "$E(2)+$EX[30:000000000000]+00",
        "$E(2)+$HDR(8)",
        "$E(2)+$LT(7,0,0,0)",
        "$E(2)+$ST(0,0,0,0)",
    ] {
        let header = receive("75600", HEADER);
        let text = format!("{START}{header}{}", receive("75600", message));
        spoiled_last(&text, |right| right[..right.len() - 3].to_string() + "44\n");
    }
    for envelope in ["$E(2)", "$E(1,1,81,73)", "$E(1,2,81,72)"] {
        let message = format!("{envelope}+$EX[30:000000000000]");
        let text = format!("{START}{}", receive("75600", &message));
        spoiled_last(&text, |_| "receive B 44\n".into());
    }
}

#[test]
fn a_wrong_44_to_a_send_is_seen() {
    for detail in [
        send("$D", ""),
        send("$D", " 0"),
        send("$D[26:000000000000]+$D[26:0A]", ""),
        send("$D[26:000000000000]+$D[18:53]", ""),
        send("$D[26:000000000000]<50", ""),
        send("$D[26:000000000000]*201", ""),
        SEND_HEADER.into(),
        "lot A 75600\n".into(),
    ] {
        let name = detail.split(' ').next().unwrap().to_string();
        let text = format!("{START_A}{detail}");
        spoiled_last(&text, |_| format!("{name} A 44\n"));
    }
}

/// What is unknown but for 44 stays so, and a reply with 44 has only two answers.
#[test]
fn a_wrong_answer_to_a_reply_is_seen() {
    for (bytes, wrong) in [
        ("$R(1,86,43)", "00"),
        ("$R(1,86,0)[16:2C]", "00"),
        ("$R(1,85,44)", "00"),
        ("$R(1,86,44)[14:50]", "00"),
        ("$R(1,86,44)", "21"),
        ("$R(1,86,12)", "22"),
    ] {
        let text = format!("{START_A}{SEND_HEADER}{}", reply(bytes));
        spoiled_last(&text, |_| format!("reply A {wrong}\n"));
    }
}

/// An engine whose presenter sends such a detail: its receiver is handed a copy.
#[test]
fn what_a_copy_holds_is_looked_at() {
    let lot = format!("{START_A}{START}{SEND_HEADER}receive B 75600 @1\nreply A 75600 @2\n");
    for (documents, expected) in [("$D[26:000000000000]", Ok(Extent::UpTo(7))), ("$D", Err(7))] {
        let text = format!("{lot}{}receive B 75600 @3\n", send(documents, ""));
        let mut answers = lines(script::play_by(Rules::CIRCULAR, text.as_bytes()));
        answers[6] = answers[6].replace("518600\n", "518644\n");
        let answers = answers.concat().into_bytes();
        assert_eq!(extent(&text, |_| answers.clone()), expected);
    }
}

/// By the circular's rules it is right.
#[test]
fn an_engine_without_44_is_found_by_todays_rules() {
    for kind in [Kind::Ordinary, Kind::BadLine, Kind::Damaged, Kind::Edges] {
        let short = shortest(kind, |text| differs_from_today(text, knows_no_44));
        println!("{short}");
        assert_eq!(short.lines().count(), 2, "{short}");
        let compared = circular::compared(short.as_bytes(), &knows_no_44(short.as_bytes()));
        assert_eq!(compared, Ok(Extent::ToTheEnd), "{short}");
    }
}

/// The start of the end that receives the detail, and the detail.
#[test]
fn an_engine_with_44_for_06_is_found_by_both_rules() {
    for differs in COMPARISONS {
        let short = shortest(Kind::Ordinary, |text| differs(text, takes_06_for_44));
        assert_eq!(short.lines().count(), 2, "{short}");
    }
}

/// What is wrong behind an answer that is left out, only today's rules tell.
#[test]
fn a_wrong_answer_counts_up_to_the_one_left_out() {
    let late = receive("83700", HEADER);
    let text = format!("{START}clock B 83699\n{late}clock B 83701\nreport B\n");
    for (at, expected) in [(2, Err(2)), (4, Ok(Extent::UpTo(3)))] {
        let spoiled = spoiled(&text, at, "clock B 30 open\n");
        assert_eq!(extent(&text, |_| spoiled.clone()), expected);
        let right = script::play(text.as_bytes());
        assert_eq!(compare::between(&right, &spoiled).unwrap().line, at);
    }
}

/// The right answers, all but one.
fn spoiled(text: &str, at: usize, wrong: &str) -> Vec<u8> {
    let mut lines = played(text);
    lines[at - 1] = wrong.into();
    lines.concat().into_bytes()
}

fn played(text: &str) -> Vec<String> {
    lines(script::play(text.as_bytes()))
}

fn lines(output: Vec<u8>) -> Vec<String> {
    let output = String::from_utf8(output).unwrap();
    output.split_inclusive('\n').map(str::to_string).collect()
}

#[test]
fn an_answer_too_few_or_too_many_is_seen() {
    let text = format!("{START}{}report B\n", receive("83730", HEADER));
    let lines = played(&text);
    let fewer = lines[..2].concat().into_bytes();
    assert_eq!(extent(&text, |_| fewer.clone()), Err(3));
    let more = (lines.concat() + "report B none\n").into_bytes();
    assert_eq!(extent(&text, |_| more.clone()), Err(4));
    let late = format!("{START}{}", receive("83700", HEADER));
    assert_eq!(extent(&late, |_| b"start B 00\n".to_vec()), Err(2));
}

/// The start of the end that receives the header, and the header.
#[test]
fn a_second_too_many_is_found_in_generated_scripts() {
    for differs in COMPARISONS {
        for kind in [Kind::BadLine, Kind::Clocks, Kind::Edges] {
            let short = shortest(kind, |text| differs(text, stops_after_the_cut_off));
            println!("{short}");
            assert_eq!(short.lines().count(), 2, "{short}");
        }
    }
}
