//! The blocks of the open points over the reference, and the tests told in words that no block
//! can hold.

use reference::open_points::block::{Block, Line};
use reference::open_points::{self, notation};
use reference::session::rules::Rules;
use reference::session::trays::Trays;
use reference::session::{Close, Session};
use reference::{bodies, columns, plain, script, tuned};

const OPENING: u32 = 75_600;

fn pair() -> [Session; 2] {
    let start = |own, partner| Session::start(140_328, own, partner, &[]).expect("a good start");
    [start(81, 72), start(72, 81)]
}

fn passed(result: Result<(), String>) {
    result.unwrap_or_else(|failure| panic!("{failure}"));
}

#[test]
fn scripts() {
    let blocks = open_points::blocks();
    let scripts: Vec<&Block> = blocks.iter().filter(|block| block.is_script()).collect();
    assert!(scripts.len() > 90, "only {} scripts", scripts.len());
    for block in scripts {
        passed(open_points::check(block, script::play));
    }
}

#[test]
fn more_scripts() {
    let blocks = open_points::more_blocks().into_iter();
    for block in blocks.filter(Block::is_script) {
        passed(open_points::check(&block, script::play));
    }
}

#[test]
fn on_the_reference() {
    for block in open_points::blocks() {
        passed(open_points::check_on_reference(&block));
    }
}

#[test]
fn details() {
    let more = open_points::more_blocks();
    for block in open_points::blocks().into_iter().chain(more) {
        for check in [plain::check, tuned::check, columns::check] {
            passed(open_points::check_details(&block, check));
        }
        passed(open_points::check_received(&block, script::play));
    }
}

#[test]
fn trays() {
    for block in open_points::blocks() {
        passed(open_points::check_trays(&block));
    }
}

#[test]
fn engine_blocks_are_named() {
    for block in open_points::blocks() {
        let puts = block.lines.iter().any(Line::puts);
        assert_eq!(puts, block.name.ends_with("engine"), "{}", block.name);
    }
}

/// The block of a point, by its whole name.
fn block(name: &str) -> Block {
    let mut blocks = open_points::blocks().into_iter();
    blocks.find(|block| block.name == name).expect(name)
}

#[test]
fn a_024_the_buffer_past_the_reply_keeps_its_bytes() {
    let [_, mut b] = pair();
    let message = notation::bytes("$E(1)+00");
    let mut short = [0xEE; 15];
    assert_eq!(b.receive(OPENING, &message, &mut short), Err(23));
    assert_eq!(short, [0xEE; 15]);
    let mut line = [0xEE; 20];
    assert_eq!(b.receive(OPENING, &message, &mut line), Ok(16));
    assert_eq!(line[..16], notation::bytes("$R(1,86,1)"));
    assert_eq!(line[16..], [0xEE; 4]);
}

#[test]
fn a_101_a_clock_call_sets_last_seen_and_close() {
    let [mut a, _] = pair();
    assert_eq!(a.clock(80_000), Ok(()));
    let before = a.report();
    assert_eq!(a.clock(84_700), Ok(()));
    assert_eq!((a.last_seen(), a.close()), (84_700, Close::Forced));
    let mut after = a.report();
    after.close = Close::Open;
    assert_eq!(after, before);
}

/// The greatest nominal in every document; the commissions make the lots differ.
#[test]
fn a_102_the_greatest_received_totals() {
    let [_, mut b] = pair();
    let mut serial = 0;
    let mut taken = |body: &[u8]| {
        serial += 1;
        let envelope = notation::bytes(&format!("$E({serial})"));
        let mut line = [0; 16];
        let message = [&envelope, body].concat();
        assert_eq!(b.receive(OPENING, &message, &mut line), Ok(16));
        assert_eq!(line[15], 0x00);
    };
    for lot in 1..=64 {
        taken(&notation::bytes(&format!("$HDR({lot})")));
        let change = format!("[26:999999999999][44:{lot:08}]");
        let detail = notation::bytes(&format!("(00513004+$D{change}*4)*50"));
        for _ in 0..13 {
            taken(&detail);
        }
        let total = format!("$LT({lot},2600,2599999999997400,{})", 2_600 * lot);
        taken(&notation::bytes(&total));
    }
    let report = b.report();
    assert_eq!(report.received.lots, 64);
    assert_eq!(report.received.totals.documents, 166_400);
    assert_eq!(report.nominal_position, -166_399_999_999_833_600);
}

#[test]
fn a_107_the_operation_of_the_next_part() {
    let (presentations, returns) = (&[0; 51], &[0; 51]);
    for (presentations_cursor, operation) in [(0, 30), (1, 40)] {
        let trays = Trays {
            presentations,
            returns,
            presentations_cursor,
            returns_cursor: 0,
        };
        assert_eq!(trays.next_operation(), operation);
    }
}

#[test]
fn a_108_a_tray_is_not_read() {
    let [mut a, _] = pair();
    let trays = Trays {
        presentations: &[0xFF; 51],
        returns: &[],
        presentations_cursor: 0,
        returns_cursor: 0,
    };
    assert_eq!(trays.check(), 0);
    let part = trays.next_part();
    assert_eq!(part, [0xFF; 51]);
    let mut line = [0; 100];
    assert_eq!(a.send_detail(OPENING, 30, part, &mut line), Err(1));
}

/// A report and a refused call anywhere in a script leave the other answers as they were.
#[test]
fn a_127_reports_and_refused_calls_change_nothing() {
    let script = block("A-145").script();
    let calls: Vec<&str> = script.lines().collect();
    let answers = played(&calls);
    for at in 2..=calls.len() {
        let (before, after) = calls.split_at(at);
        let added = ["report A", "header A 0 21000000 1 9"];
        let mut more = played(&[before, &added, after].concat());
        let refused: Vec<String> = more.drain(at..at + 2).skip(1).collect();
        let expected = if at == 2 {
            "header A 31"
        } else {
            "header A 30"
        };
        assert_eq!(refused, [expected]);
        assert_eq!(more, answers);
    }
}

fn played(calls: &[&str]) -> Vec<String> {
    let output = script::play(calls.join("\n").as_bytes());
    let output = String::from_utf8(output).expect("answers are text");
    output.lines().map(str::to_string).collect()
}

#[test]
fn a_142_the_length_of_what_was_written() {
    let [mut a, mut b] = pair();
    let (mut line, mut reply) = ([0; 10_412], [0; 16]);
    assert_eq!(a.send_header(OPENING, 0, 1, 7, &mut line), Ok(31));
    assert_eq!(b.receive(OPENING, &line[..31], &mut reply), Ok(16));
    assert_eq!(a.take_reply(OPENING, &reply), Ok(()));
    let sent = a.send_detail(OPENING, 30, &bodies::EXAMPLE, &mut line);
    assert_eq!(sent, Ok(67));
    assert_eq!(b.receive(OPENING, &line[..67], &mut reply), Ok(16));
    assert_eq!(a.take_reply(OPENING, &reply), Ok(()));
    assert_eq!(a.send_lot_total(OPENING, &mut line), Ok(34));
    assert_eq!(b.receive(OPENING, &line[..34], &mut reply), Ok(16));
    assert_eq!(a.take_reply(OPENING, &reply), Ok(()));
    assert_eq!(a.send_session_total(OPENING, &mut line), Ok(37));
}

/// The circular's receiver stops with the presenter, today's half a minute later.
#[test]
fn a_152_the_receiver_by_both_sets_of_rules() {
    for (rules, last) in [(Rules::CIRCULAR, 83_699), (Rules::TODAY, 83_729)] {
        for (time, code) in [(last, 0x00), (last + 1, 0x10)] {
            let mut b = Session::start_by(rules, 140_328, 72, 81, &[]).expect("a good start");
            let mut reply = [0; 16];
            let header = notation::bytes("$E(1)+$HDR(7)");
            assert_eq!(b.receive(time, &header, &mut reply), Ok(16));
            assert_eq!(reply[15], code, "{rules:?}, {time}");
        }
    }
}

/// With no lot open, so that the circular gives 07; to it 44 is also unknown in replies.
#[test]
fn a_161_a_document_of_nominal_zero_by_both_sets_of_rules() {
    for (rules, refusal, code) in [(Rules::CIRCULAR, 7, 0x07), (Rules::TODAY, 44, 0x44)] {
        let [mut a, mut b] = pair();
        a.set_rules(rules);
        b.set_rules(rules);
        let (mut line, mut reply) = ([0; 100], [0; 16]);
        let document = notation::bytes("$D[26:000000000000]");
        let sent = a.send_detail(OPENING, 30, &document, &mut line);
        assert_eq!(sent, Err(refusal));
        let message = notation::bytes("$E(1)+$EX[30:000000000000]");
        assert_eq!(b.receive(OPENING, &message, &mut reply), Ok(16));
        assert_eq!(reply[15], code, "{rules:?}");
        assert_eq!(a.send_header(OPENING, 0, 1, 7, &mut line), Ok(31));
        let taken = a.take_reply(OPENING, &notation::bytes("$R(1,86,44)"));
        assert_eq!(taken, if rules.knows_44 { Ok(()) } else { Err(22) });
    }
}

/// Every refusal of a call that writes leaves the whole buffer.
#[test]
fn a_142_a_refused_call_writes_nothing() {
    let [mut a, mut b] = pair();
    let mut line = [0xEE; 100];
    let message = notation::bytes("$E(2)+$HDR(7)");
    let refusals = [
        a.send_header(OPENING, 0, 1, 0, &mut line),
        a.send_header(OPENING, 0, 1, 7, &mut line[..30]),
        a.send_detail(OPENING, 30, &bodies::EXAMPLE, &mut line),
        a.send_lot_total(OPENING, &mut line),
        a.send_session_total(OPENING, &mut line[..36]),
        b.receive(OPENING, &message, &mut line),
    ];
    assert_eq!(refusals.map(Result::unwrap_err), [1, 23, 7, 7, 23, 35]);
    assert_eq!(line, [0xEE; 100]);
    assert_eq!([a.last_seen(), b.last_seen()], [0, 0]);
}
