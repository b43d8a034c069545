//! The generated scripts must reach every reply code, every refusal, every close and all that the
//! comparison with the circular's rules leaves out often enough, headers must come at the hours
//! that decide on them, and a seed must give the same script again.

use reference::asked::asked;
use reference::compare::circular::{self, Extent};
use reference::compare::Difference;
use reference::generate::{self, Kind};
use reference::session::rules::Rules;
use reference::{books, compare, corpus, script};
use std::collections::{BTreeMap, BTreeSet, HashMap, HashSet};

/// Among the answers of a usual run.
struct Counts {
    /// The codes of replies.
    replied: [u64; 100],
    /// The refusals of calls, 0 for unrefused ones.
    refused: [u64; 100],
    bad_lines: u64,
    without_session: u64,
    ordered: u64,
    forced: u64,
    /// Reports after a forced close that still name a lot.
    named_for_ever: u64,
}

impl Counts {
    fn of_all_kinds() -> Counts {
        let mut counts = Counts {
            replied: [0; 100],
            refused: [0; 100],
            bad_lines: 0,
            without_session: 0,
            ordered: 0,
            forced: 0,
            named_for_ever: 0,
        };
        for kind in Kind::ALL {
            for seed in 0..kind.scripts() {
                let output = script::play(&generate::script(kind, seed));
                String::from_utf8(output)
                    .unwrap()
                    .lines()
                    .for_each(|line| counts.add(line));
            }
        }
        counts
    }

    fn add(&mut self, line: &str) {
        let words: Vec<&str> = line.split(' ').collect();
        match words.as_slice() {
            ["bad", "line"] => self.bad_lines += 1,
            [_, _, "none"] => self.without_session += 1,
            ["report", ..] => {
                let named = line.contains(" forced ") && line.contains(" lot ");
                self.named_for_ever += u64::from(named);
            }
            ["clock", _, code, close] => {
                self.refused[number(code)] += 1;
                self.ordered += u64::from([*code, *close] == ["00", "ordered"]);
                self.forced += u64::from([*code, *close] == ["00", "forced"]);
            }
            ["receive", _, "00", _, reply] => {
                self.refused[0] += 1;
                self.replied[number(&reply[30..])] += 1;
            }
            [_, _, code, ..] => self.refused[number(code)] += 1,
            _ => panic!("{line}"),
        }
    }
}

fn number(word: &str) -> usize {
    word.parse().expect(word)
}

#[test]
fn everything_is_common() {
    let counts = Counts::of_all_kinds();
    show("replied", &counts.replied);
    show("refused", &counts.refused);
    let others = [
        ("bad lines", counts.bad_lines),
        ("without a session", counts.without_session),
        ("ordered", counts.ordered),
        ("forced", counts.forced),
        ("named for ever", counts.named_for_ever),
    ];
    for (what, count) in others {
        println!("{what} {count}");
        assert!(count >= 50, "{what}: {count}");
    }
    for code in [0, 1, 3, 4, 6, 7, 8, 9, 10, 11, 12, 44] {
        assert!(counts.replied[code] >= 40, "code {code:02} is rare");
    }
    for refusal in [
        1, 3, 7, 10, 11, 12, 20, 21, 22, 23, 24, 30, 31, 32, 33, 34, 35, 44,
    ] {
        assert!(
            counts.refused[refusal] >= 40,
            "refusal {refusal:02} is rare"
        );
    }
    assert_eq!(counts.refused[36], 0, "nobody sends 99,999,999 messages");
}

fn show(what: &str, counts: &[u64]) {
    let common = counts.iter().enumerate().filter(|(_, count)| **count > 0);
    let texts: Vec<String> = common
        .map(|(at, count)| format!("{at:02}:{count}"))
        .collect();
    println!("{what} {}", texts.join(" "));
}

/// What one script has of headers: texts with the second of a call and its code, where a header
/// was received the code of the reply.
#[derive(Default)]
struct Headers {
    met: BTreeSet<String>,
    /// By their numbers, those that were sent: when, and the bytes.
    sent: HashMap<String, (String, String)>,
    /// The ends and serials of what was received, which counts only once.
    received: HashSet<String>,
}

impl Headers {
    fn met(script: &[u8]) -> BTreeSet<String> {
        let output = String::from_utf8(script::play(script)).unwrap();
        let mut headers = Headers::default();
        for (call, answer) in asked(script).zip(output.lines()) {
            headers.add(&String::from_utf8_lossy(call), answer);
        }
        headers.met
    }

    fn add(&mut self, call: &str, answer: &str) {
        let call: Vec<&str> = call.split(' ').collect();
        let answer: Vec<&str> = answer.split(' ').collect();
        match (&call[..], &answer[..]) {
            (["header", _, time, ..], [_, _, code, written @ ..]) => {
                self.met.insert(format!("sent {time}: {code}"));
                if let [number, bytes] = written {
                    let sent = (time.to_string(), bytes.to_string());
                    self.sent.insert(number.to_string(), sent);
                }
            }
            (["receive", end, time, bytes, ..], [_, _, "00", _, reply]) => {
                if self.received.insert(format!("{end}{}", &reply[16..24])) {
                    self.receive(time, bytes, &reply[30..]);
                }
            }
            _ => {}
        }
    }

    fn receive(&mut self, time: &str, bytes: &str, code: &str) {
        if let Some((sent, _)) = self.sent.get(bytes) {
            let both = format!("sent {sent}, received {time}: {code}");
            self.met.insert(both);
        }
        let bytes = self.sent.get(bytes).map_or(bytes, |(_, bytes)| bytes);
        if bytes.len() == 62 && &bytes[28..30] == "01" {
            self.met.insert(format!("received {time}: {code}"));
        }
    }
}

/// With the least number of scripts in a usual run of four kinds; what is seen of clocks that are
/// three seconds apart comes last.
const LIMITS: [(&str, u64); 16] = [
    ("sent 83699: 00", 250),
    ("sent 83700: 10", 300),
    ("sent 83729: 10", 300),
    ("sent 83730: 10", 300),
    ("received 83699: 00", 200),
    ("received 83700: 00", 180),
    ("received 83729: 00", 120),
    ("received 83729: 04", 40),
    ("received 83729: 11", 25),
    ("received 83730: 10", 150),
    ("received 83731: 10", 120),
    ("sent 83699, received 83729: 00", 25),
    ("sent 83699, received 83730: 10", 30),
    ("sent 83699, received 83702: 00", 40),
    ("sent 83699, received 83696: 00", 50),
    ("sent 83702: 10", 100),
];

#[test]
fn headers_come_at_their_limits() {
    let mut scripts: BTreeMap<String, u64> = BTreeMap::new();
    for kind in [Kind::BadLine, Kind::Clocks, Kind::Edges, Kind::ManyLots] {
        for seed in 0..kind.scripts() {
            for met in Headers::met(&generate::script(kind, seed)) {
                *scripts.entry(met).or_default() += 1;
            }
        }
    }
    for (what, least) in LIMITS {
        let count = scripts.get(what).copied().unwrap_or(0);
        println!("{what} {count}");
        assert!(count >= least, "{what}: {count}");
    }
}

/// The first answers that are not the circular's, a code of each; with the least number of scripts
/// in a usual run.
const LEFT_OUT: [(&str, u64); 12] = [
    ("receive 10, receive 00", 300),
    ("receive 10, receive 04", 15),
    ("receive 10, receive 11", 20),
    ("receive 00, receive 44", 40),
    ("receive 07, receive 44", 40),
    ("receive 12, receive 44", 4),
    ("detail 00, detail 44", 250),
    ("detail 07, detail 44", 20),
    ("detail 12, detail 44", 8),
    ("detail 23, detail 44", 5),
    ("reply 22, reply 00", 60),
    ("reply 22, reply 35", 8),
];

/// Of each kind there are enough, and there is no other.
#[test]
fn what_is_left_out_is_common() {
    let mut scripts: BTreeMap<String, u64> = BTreeMap::new();
    for kind in Kind::ALL {
        for seed in 0..kind.scripts() {
            let first = first_left_out(&generate::script(kind, seed));
            let codes = first.map(|first| [first.reference, first.engine].map(in_short).join(", "));
            *scripts.entry(codes.unwrap_or("none".into())).or_default() += 1;
        }
    }
    println!("{scripts:#?}");
    for (what, least) in LEFT_OUT {
        let count = scripts.remove(what).unwrap_or(0);
        assert!(count >= least, "{what}: {count}");
    }
    assert!(scripts.keys().eq(["none"]), "{scripts:?}");
}

#[test]
fn the_hand_made_scripts_differ_in_what_is_left_out() {
    for made in corpus::hand_made() {
        first_left_out(&made.text);
    }
}

/// The first answer of today that is not the circular's; the comparison with its rules must end
/// there.
fn first_left_out(script: &[u8]) -> Option<Difference> {
    let today = script::play(script);
    let of_circular = script::play_by(Rules::CIRCULAR, script);
    let first = compare::between(&of_circular, &today);
    let end = first.as_ref().map(|first| Extent::UpTo(first.line));
    let compared = circular::compared(script, &today);
    assert_eq!(compared, Ok(end.unwrap_or(Extent::ToTheEnd)));
    first
}

/// The call with the code of the reply or the refusal.
fn in_short(answer: Vec<u8>) -> String {
    let answer = String::from_utf8(answer).unwrap();
    let words: Vec<&str> = answer.trim_end().split(' ').collect();
    match words[..] {
        ["receive", _, "00", _, reply] => format!("receive {}", &reply[30..]),
        [name, _, code, ..] => format!("{name} {code}"),
        _ => panic!("{answer}"),
    }
}

/// A presenter stops itself with the others, and a lot total is 07 only for want of documents.
#[test]
fn few_codes_are_replied_while_the_line_alters_nothing() {
    for kind in [Kind::Ordinary, Kind::BadLine, Kind::Clocks] {
        for seed in 0..kind.scripts() {
            let script = generate::script(kind, seed);
            assert!(books::applies(&script));
            let output = String::from_utf8(script::play(&script)).unwrap();
            for line in output.lines().filter(|line| line.contains(" 00 @")) {
                let reply = line
                    .strip_prefix("receive")
                    .map(|rest| &rest[rest.len() - 4..]);
                let known = [
                    "8600", "8604", "8606", "8610", "8700", "8704", "8707", "9700",
                ];
                assert!(reply.is_none_or(|reply| known.contains(&reply)), "{line}");
            }
        }
    }
}

#[test]
fn a_seed_gives_the_same_script() {
    for kind in Kind::ALL {
        assert_eq!(generate::script(kind, 3), generate::script(kind, 3));
        assert_ne!(generate::script(kind, 3), generate::script(kind, 4));
    }
}
