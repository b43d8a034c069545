//! The presenter's check: the plain and the tuned one agree, and both are the receiver's check of
//! the same documents without code 06, by today's rules and by the circular's.

use reference::bodies::{self, Case, PRESENTED, RETURN};
use reference::session::rules::Rules;
use reference::{plain, tuned, Checked};
use std::collections::BTreeMap;

const FIRST_SEED: u64 = 19_900_011;
const GENERATED: u64 = 50_000;

fn agreed(rules: Rules, documents: &[u8], operation: u8, receiving: u16) -> Checked {
    let plain = plain::check_to_send(rules, documents, operation, receiving);
    let tuned = tuned::check_to_send(rules, documents, operation, receiving);
    assert_eq!(plain, tuned, "operation {operation:02X} {documents:02X?}");
    plain
}

#[test]
fn generated_documents() {
    for (rules, codes) in [
        (Rules::TODAY, &[0_u8, 1, 3, 44][..]),
        (Rules::CIRCULAR, &[0, 1, 3]),
    ] {
        let counts = counts(rules);
        println!("{counts:?}");
        assert!(counts.keys().eq(codes) && counts.values().all(|&count| count >= 100));
    }
}

/// How many of the generated documents get which code.
fn counts(rules: Rules) -> BTreeMap<u8, u64> {
    let mut counts = BTreeMap::new();
    for seed in FIRST_SEED..FIRST_SEED + GENERATED {
        let Case { body, own, .. } = bodies::case(seed);
        let documents = bodies::documents_in(&body);
        if own > 9999 || !(1..=200).contains(&documents.len()) {
            continue;
        }
        for operation in [PRESENTED, RETURN] {
            let sent = agreed(rules, documents.as_flattened(), operation, own);
            let body = bodies::body(operation, &documents);
            let received = plain::check_by(rules, &body, own, &[]);
            let without_06 = received.code == 6 && matches!(sent.code, 0 | 44);
            assert!(sent == received || without_06, "seed {seed}");
            *counts.entry(sent.code).or_default() += 1;
        }
    }
    counts
}

#[test]
fn every_value_of_every_byte() {
    for operation in [PRESENTED, RETURN] {
        for count in [1, 4, 5] {
            let good = [bodies::EXAMPLE; 5][..count].as_flattened().to_vec();
            assert_eq!(agreed(Rules::TODAY, &good, operation, 72).code, 0);
            for at in good.len() - 51..good.len() {
                for value in 0..=255 {
                    let mut documents = good.clone();
                    documents[at] = value;
                    agreed(Rules::TODAY, &documents, operation, 72);
                }
            }
        }
    }
}
