//! Evenings between two sessions of the reference, with the plain and the tuned detail check.

use reference::exchange::{evening, trays, FULL};
use reference::session::detail::DetailCheck;
use reference::session::report::{AwaitedTotal, Report};
use reference::session::{Close, Session};

/// The reports of an evening with so many presentations and returns in each direction.
fn reports(check: DetailCheck, presentations: usize, returns: usize) -> Result<[Report; 2], u8> {
    let mut sessions = [(81, 72), (72, 81)].map(|(own, partner)| {
        let mut session = Session::start(140_328, own, partner, &[]).expect("a good start");
        session.set_detail_check(check);
        session
    });
    let of_a = trays(1, presentations, returns, 72);
    let of_b = trays(2, presentations, returns, 81);
    let [a, b] = &mut sessions;
    evening(a, b, [of_a.lent(), of_b.lent()])
}

fn agree(a: &Report, b: &Report, lots: u64, documents: u64) {
    assert_eq!((a.presented, a.received), (b.received, b.presented));
    assert_eq!(a.nominal_position, -b.nominal_position);
    assert_eq!(a.commission_position, -b.commission_position);
    for report in [a, b] {
        assert_eq!(report.presented.lots, lots);
        assert_eq!(report.presented.totals.documents, documents);
        assert_eq!(report.close, Close::Ordered);
        assert_eq!(report.awaited, AwaitedTotal::None);
    }
}

#[test]
fn evenings_of_every_size() {
    for (presentations, returns, lots) in [
        (0, 0, 0),
        (1, 0, 1),
        (0, 1, 1),
        (200, 201, 1),
        (2_600, 0, 1),
        (2_500, 101, 2),
        (2_600, 2_601, 3),
    ] {
        let documents = (presentations + returns) as u64;
        for check in [DetailCheck::PLAIN, DetailCheck::TUNED] {
            let [a, b] = reports(check, presentations, returns).expect("nothing is refused");
            agree(&a, &b, lots, documents);
        }
    }
}

#[test]
fn a_full_evening() {
    let plain = reports(DetailCheck::PLAIN, FULL / 2, FULL / 2).expect("nothing is refused");
    let tuned = reports(DetailCheck::TUNED, FULL / 2, FULL / 2).expect("nothing is refused");
    assert_eq!(plain, tuned);
    agree(&plain[0], &plain[1], 64, 166_400);
}

#[test]
fn one_document_too_many() {
    assert_eq!(reports(DetailCheck::TUNED, FULL, 1), Err(11));
}
