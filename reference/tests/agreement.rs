//! All four detail checks must give the same answer, on generated bodies, on every value of
//! every byte, and at the greatest length; and the reference's three by the circular's rules too.

use reference::bodies::{self, Case, Document, EXAMPLE, NOMINAL, PRESENTED, RETURN};
use reference::session::rules::Rules;
use reference::{columns, line, plain, tuned, Checked};

const FIRST_SEED: u64 = 19_900_011;
const GENERATED: u64 = 200_000;

/// The common answer; `origin` says where a failing body came from.
fn agreed(body: &[u8], own: u16, represented: &[u16], origin: &dyn Fn() -> String) -> Checked {
    let plain = plain::check(body, own, represented);
    let others = [
        ("tuned", tuned::check(body, own, represented)),
        ("columns", columns::check(body, own, represented)),
        ("line", line::check(body, own, represented)),
    ];
    assert!(
        others.iter().all(|(_, other)| plain == *other),
        "{}\nbody {}\nown {own}\nrepresented {represented:?}\nplain {plain:?}\n{others:#?}",
        origin(),
        hex(body),
    );
    assert!(plain.code == 0 || plain == Checked::refused(plain.code));
    for check in [plain::check_by, tuned::check_by, columns::check_by] {
        let of_circular = check(Rules::CIRCULAR, body, own, represented);
        let without_44 = plain.code == 44 && of_circular.code == 0;
        assert!(plain == of_circular || without_44, "{}", origin());
    }
    plain
}

fn hex(body: &[u8]) -> String {
    body.iter().map(|byte| format!("{byte:02X}")).collect()
}

#[test]
fn generated_bodies() {
    let mut counts = [0; 256];
    for seed in FIRST_SEED..FIRST_SEED + GENERATED {
        let Case {
            body,
            own,
            represented,
        } = bodies::case(seed);
        let answer = agreed(&body, own, &represented, &|| format!("seed {seed}"));
        counts[usize::from(answer.code)] += 1;
    }
    for code in [0, 1, 3, 6, 9, 24, 44] {
        println!("code {code:02}: {}", counts[code]);
        assert!(
            counts[code] >= 100,
            "code {code:02} came only {} times",
            counts[code]
        );
        counts[code] = 0;
    }
    assert_eq!(
        counts, [0; 256],
        "a code that the detail check does not have"
    );
}

/// The greatest digits in all fields, for 9999 as own.
fn nines(operation: u8) -> Document {
    let mut document = [0x99; 51];
    document[5] = 0x80;
    document[11..13].copy_from_slice(&[0x31, 0x12]);
    document[17] = 0x52;
    document[20] = 0x52;
    document[40] = 0x02;
    if operation == RETURN {
        document[41] = 0x00;
    }
    document
}

/// The least amounts.
fn ones() -> Document {
    let mut document = EXAMPLE;
    document[NOMINAL].copy_from_slice(&[0, 0, 0, 0, 0, 1]);
    document[43..47].copy_from_slice(&[0, 0, 0, 1]);
    document
}

/// In the last document, which stands alone in its group or is the fourth of a full one.
#[test]
fn every_value_of_every_byte() {
    for operation in [PRESENTED, RETURN] {
        for (document, own) in [(EXAMPLE, 72), (ones(), 72), (nines(operation), 9999)] {
            for count in [1, 4, 5, 8] {
                let good = bodies::body(operation, &vec![document; count]);
                assert_eq!(agreed(&good, own, &[], &|| "good".into()).code, 0);
                let last = good.len() - 55;
                for at in (0..4).chain(last..good.len()) {
                    for value in 0..=255 {
                        let mut body = good.clone();
                        body[at] = value;
                        agreed(&body, own, &[], &|| format!("byte {at} set to {value:02X}"));
                    }
                }
            }
        }
    }
}

/// All days and months, identifications, tariff keys or reasons, and drawees.
#[test]
fn every_value_of_two_bytes() {
    for operation in [PRESENTED, RETURN] {
        for at in [5, 11, 31, 41] {
            for value in 0..=u16::MAX {
                let mut document = EXAMPLE;
                document[at..at + 2].copy_from_slice(&value.to_be_bytes());
                let body = bodies::body(operation, &[document]);
                agreed(&body, 72, &[9999, 7], &|| {
                    format!("bytes {at} set to {value:04X}")
                });
            }
        }
    }
}

fn code(body: &[u8]) -> u8 {
    agreed(body, 72, &[], &|| format!("{} bytes", body.len())).code
}

#[test]
fn greatest_length() {
    for operation in [PRESENTED, RETURN] {
        let full = bodies::of_examples(operation, 200);
        let answer = agreed(&full, 72, &[], &|| "50 full groups".into());
        let expected = Checked {
            code: 0,
            documents: 200,
            nominal: 3_000_000,
            commission: 6_000,
        };
        assert_eq!((full.len(), answer), (10_400, expected));
        for cut in 1..=208 {
            let rest = 10_400 - cut;
            let whole_group = cut == 208;
            assert_eq!(code(&full[..rest]), if whole_group { 0 } else { 1 });
        }
        for more in 1..=208 {
            for byte in [0x00, 0x04, 0x51, 0x30] {
                assert_eq!(code(&[full.as_slice(), &vec![byte; more]].concat()), 1);
            }
        }
        for count in 197..=204 {
            let expected = if count <= 200 { 0 } else { 1 };
            assert_eq!(code(&bodies::of_examples(operation, count)), expected);
        }
    }
}

/// Values that matter in each byte of every group's head and of the last document.
#[test]
fn full_body_with_one_byte_changed() {
    let full = bodies::of_examples(PRESENTED, 200);
    let heads = (0..49).flat_map(|group| 208 * group..208 * group + 4);
    for at in heads.chain(10_345..10_400) {
        for value in [
            0x00, 0x01, 0x02, 0x04, 0x30, 0x40, 0x50, 0x51, 0x53, 0x72, 0x99, 0x0A, 0xA0, 0xFF,
        ] {
            let mut body = full.clone();
            body[at] = value;
            code(&body);
            body.push(value);
            assert_eq!(code(&body), 1);
        }
    }
}

/// The greatest sums, and the fault of each document of a full body alone.
#[test]
fn full_bodies_of_nines_and_of_one_fault() {
    for operation in [PRESENTED, RETURN] {
        let body = bodies::body(operation, &[nines(operation); 200]);
        let answer = agreed(&body, 9999, &[], &|| "nines".into());
        assert_eq!(
            (answer.nominal, answer.commission),
            (199_999_999_999_800, 19_999_999_800)
        );
    }
    for (at, value, expected) in [
        (17, 0x53, 1),
        (30, 0x0A, 3),
        (46, 0xA0, 3),
        (32, 0x73, 6),
        (50, 0xFF, 0),
    ] {
        for faulty in 0..200 {
            let mut documents = [nines(PRESENTED); 200];
            documents[faulty][at] = value;
            let body = bodies::body(PRESENTED, &documents);
            let answer = agreed(&body, 9999, &[], &|| format!("fault in document {faulty}"));
            assert_eq!(answer.code, expected);
        }
    }
}

/// Alone in a full body, and beside another fault, which comes first.
#[test]
fn a_document_for_nothing_at_every_place() {
    for operation in [PRESENTED, RETURN] {
        for place in 0..200 {
            let mut documents = [nines(operation); 200];
            documents[place][NOMINAL].fill(0);
            let code = |documents: &[Document]| {
                let body = bodies::body(operation, documents);
                agreed(&body, 9999, &[], &|| format!("nothing in document {place}")).code
            };
            assert_eq!(code(&documents), 44);
            let drawee = if operation == PRESENTED { 6 } else { 44 };
            for (at, value, expected) in [(17, 0x53, 1), (46, 0xA0, 3), (32, 0x73, drawee)] {
                for other in [place, 199 - place] {
                    let mut documents = documents;
                    documents[other][at] = value;
                    assert_eq!(code(&documents), expected);
                }
            }
        }
    }
}

/// Each byte of the nominal alone, between fields of nines.
#[test]
fn every_value_of_a_single_byte_of_a_nominal() {
    for operation in [PRESENTED, RETURN] {
        for at in NOMINAL {
            for value in 0..=255 {
                let mut document = nines(operation);
                document[NOMINAL].fill(0);
                document[at] = value;
                let body = bodies::body(operation, &[nines(operation), document]);
                let answer = agreed(&body, 9999, &[], &|| format!("byte {at}: {value:02X}"));
                let expected = match value {
                    0 => 44,
                    value if value >> 4 > 9 || value & 15 > 9 => 3,
                    _ => 0,
                };
                assert_eq!(answer.code, expected);
            }
        }
    }
}

/// Any number of represented entities, each place of them, and one too many.
#[test]
fn represented_entities() {
    let all = [1000, 1001, 1002, 1003, 1004, 1005, 1006, 1007, 1008];
    for count in 0..=9 {
        for drawee in 0x1000..=0x1008_u16 {
            let mut document = EXAMPLE;
            document[31..33].copy_from_slice(&drawee.to_be_bytes());
            let body = bodies::body(PRESENTED, &[EXAMPLE, document, EXAMPLE, EXAMPLE, document]);
            let answer = agreed(&body, 72, &all[..count], &|| format!("drawee {drawee:04X}"));
            let known = usize::from(drawee - 0x1000) < count;
            assert_eq!(
                answer.code,
                if count > 8 {
                    24
                } else if known {
                    0
                } else {
                    6
                }
            );
        }
    }
}
