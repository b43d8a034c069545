//! Writing then reading gives the fields back, and reading then writing the bytes, for every
//! layout but the detail's.

use super::course::Lot;
use super::envelope::{Envelope, Kind};
use super::header::Header;
use super::reply::Reply;
use super::rules::Rules;
use super::total;
use super::totals::{SessionTotals, Totals};

const TOTALS: Totals = Totals {
    documents: 2_600,
    nominal: 2_599_999_999_997_400,
    commission: 259_999_997_400,
};

#[test]
fn envelope() {
    let envelope = Envelope {
        kind: Kind::Reply,
        date: 10_128,
        presenting: 81,
        receiving: 9_999,
        serial: 99_999_999,
    };
    let mut line = [0xEE; 20];
    assert_eq!(envelope.write(&mut line), [0xEE; 8]);
    assert_eq!(Envelope::read(Kind::Reply, &line[..16]), Some(envelope));
}

#[test]
fn header() {
    let header = Header {
        hhmmsscc: 23_595_999,
        date: 311_299,
        presenting: 0,
        receiving: 9_999,
        centre: 1_234,
        number: 9_999,
    };
    let mut body = [0xEE; 19];
    header.write(&mut body);
    assert_eq!(Header::read(&body), Some(header));
}

#[test]
fn totals() {
    let (number, totals) = (9_999, TOTALS);
    let lot = Lot { number, totals };
    let mut body = [0xEE; 22];
    total::write_lot(&lot, &mut body);
    assert_eq!(total::read_lot(&body), Ok(lot));
    let stated = SessionTotals { lots: 64, totals };
    let mut body = [0xEE; 25];
    total::write_session(&stated, &mut body);
    assert_eq!(total::read_session(&body), Ok(stated));
}

#[test]
fn reply() {
    for operation in [86, 87, 97] {
        for code in [0, 1, 3, 4, 6, 7, 8, 9, 10, 11, 12, 44] {
            let reply = Reply { operation, code };
            let mut body = [0xEE; 4];
            reply.write(&mut body);
            assert_eq!(Reply::read(Rules::TODAY, &body), Some(reply));
            let of_circular = Some(reply).filter(|_| code != 44);
            assert_eq!(Reply::read(Rules::CIRCULAR, &body), of_circular);
        }
    }
}
