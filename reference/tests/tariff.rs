//! The line's commissions against those of the reference: of one document and of whole trays, with
//! given and generated tariffs.
//!
//! `LONG=n` takes n times as many seeds, `SEED=s` begins with another seed than 0.

use reference::bodies::{Document, EXAMPLE};
use reference::compare::questions::Both;
use reference::corpus::tariff::{fixed, of_seed};
use reference::generate::tariff::trays::stating;
use reference::generate::tariff::SEEDS;
use reference::line;
use reference::questions::numbers;
use reference::tariff::commission::Commissioned;
use reference::tariff::rounding::rounded;
use reference::tariff::tray::Filled;
use reference::tariff_script::{self, Commissions};

const ENGINE: Commissions = Commissions {
    commission: line::commission,
    fill_commissions: line::fill_commissions,
};

fn engine(text: &[u8]) -> Vec<u8> {
    ENGINE.play(text)
}

const BOTH: Both = Both {
    reference: tariff_script::play,
    engine,
};

/// How many the usual number of seeds gives at the least. Any seeds give exactly so many with a bad
/// tariff, with a bad amount, and of trays without documents or with a part of one.
const LEAST: [(&str, u64); 19] = [
    ("kept with key 0", 400),
    ("raised", 350),
    ("cut", 500),
    ("an exact half", 90),
    ("rounded up", 100),
    ("rounded down", 100),
    ("no rounding", 200),
    ("bad tariff", 2_300),
    ("bad amount", 900),
    ("unknown key", 480),
    ("tray without documents", 100),
    ("tray filled", 180),
    ("tray, nothing changed", 25),
    ("tray, bad tariff", 1_400),
    ("tray, no whole documents", 300),
    ("tray, key without digits", 280),
    ("tray, amount without digits", 450),
    ("tray, unknown key", 150),
    ("tray, first document bad", 550),
];

fn kind(question: &str, answer: &str) -> &'static str {
    let asked: Vec<&str> = question.split(' ').collect();
    let answered: Vec<&str> = answer.split(' ').collect();
    match (asked[0], answered[0]) {
        ("commission", "00") => kind_of_commission(&numbers(&asked[1..])),
        ("commission", "42") => "bad tariff",
        ("commission", "01") => "bad amount",
        ("commission", "41") => "unknown key",
        ("tray", code) => kind_of_tray(code, asked[1], answered[1], answered[2]),
        _ => "no answer",
    }
}

/// By key, nominal and typed commission, then the tariff, all of them good.
fn kind_of_commission(asked: &[u64]) -> &'static str {
    let (key, nominal) = (asked[0], asked[1]);
    let mut rows = asked[3..].chunks(4);
    let Some(&[_, rate, least, greatest]) = rows.find(|row| row[0] == key) else {
        return "kept with key 0";
    };
    let product = nominal * rate;
    match (rounded(product, 10_000), product % 10_000) {
        (commission, _) if commission < least => "raised",
        (commission, _) if commission > greatest => "cut",
        (_, 0) => "no rounding",
        (_, 5_000) => "an exact half",
        (_, rest) if rest < 5_000 => "rounded down",
        _ => "rounded up",
    }
}

fn kind_of_tray(code: &str, before: &str, documents: &str, after: &str) -> &'static str {
    match (code, documents) {
        ("00", "0") => "tray without documents",
        ("00", _) if after.starts_with(before) => "tray, nothing changed",
        ("00", _) => "tray filled",
        ("42", "0") => "tray, bad tariff",
        ("25", "0") => "tray, no whole documents",
        ("01" | "03" | "41", "0") => "tray, first document bad",
        ("01", _) => "tray, key without digits",
        ("03", _) => "tray, amount without digits",
        ("41", _) => "tray, unknown key",
        _ => "no answer",
    }
}

#[test]
fn the_line_answers_fixed_questions_like_the_reference() {
    BOTH.ask_fixed(fixed());
}

#[test]
fn the_line_answers_generated_questions_like_the_reference() {
    BOTH.ask_seeds(SEEDS, of_seed, kind, &LEAST);
}

const EACH: [Commissions; 2] = [Commissions::REFERENCE, ENGINE];
/// Key 1 takes a tenth.
const A_TENTH: [u32; 4] = [1, 1_000, 0, 99_999_999];

/// Asks both for key 1, with nothing typed.
fn of_key_1(rate: u32, least: u32, greatest: u32, nominal: u64) -> u64 {
    let tariff = [1, rate, least, greatest];
    let [reference, engine] = EACH.map(|asked| (asked.commission)(&tariff, 1, nominal, 0));
    assert_eq!((reference, reference.code), (engine, 0));
    reference.commission
}

/// The code that both give, with no commission beside it.
fn code(tariff: &[u32], key: u32, nominal: u64, typed: u64) -> u8 {
    let [reference, engine] = EACH.map(|asked| (asked.commission)(tariff, key, nominal, typed));
    assert_eq!((reference, reference.commission), (engine, 0));
    reference.code
}

#[test]
fn an_exact_half_goes_up() {
    for (nominal, commission) in [(4, 0), (5, 1), (14, 1), (15, 2), (24, 2), (25, 3), (34, 3)] {
        assert_eq!(of_key_1(1_000, 0, 99_999_999, nominal), commission);
    }
    for (nominal, commission) in [(4_999, 0), (5_000, 1), (14_999, 1), (15_000, 2)] {
        assert_eq!(of_key_1(1, 0, 99_999_999, nominal), commission);
    }
    assert_eq!(of_key_1(9_999, 0, 99_999_999, 5_000), 5_000);
    assert_eq!(of_key_1(9_999, 0, 99_999_999, 5_001), 5_000);
}

#[test]
fn raised_to_the_least_and_cut_to_the_greatest() {
    for (nominal, commission) in [
        (0, 5),
        (44, 5),
        (54, 5),
        (55, 6),
        (94, 9),
        (95, 9),
        (900, 9),
    ] {
        assert_eq!(of_key_1(1_000, 5, 9, nominal), commission);
    }
    assert_eq!(of_key_1(0, 0, 99_999_999, 999_999_999_999), 0);
    assert_eq!(of_key_1(0, 7, 7, 999_999_999_999), 7);
    assert_eq!(of_key_1(10_000, 7, 7, 999_999_999_999), 7);
}

#[test]
fn the_tariff_of_the_key_is_used() {
    let tariff = [
        7, 100, 0, 99_999_999, 9_999, 200, 0, 99_999_999, 1, 300, 0, 99_999_999,
    ];
    for asked in EACH {
        for (key, commission) in [(7, 150), (9_999, 300), (1, 450), (0, 30)] {
            let expected = Commissioned {
                code: 0,
                commission,
            };
            assert_eq!((asked.commission)(&tariff, key, 15_000, 30), expected);
        }
    }
    assert_eq!(code(&tariff, 2, 15_000, 30), 41);
}

/// The first has four keys if its length is cut to 16 bits, the others are one step past a limit.
#[test]
fn bad_tariffs() {
    let keys: Vec<u32> = (1..=21).flat_map(|key| [key, 0, 0, 0]).collect();
    assert_eq!(code(&keys[..80], 21, 0, 0), 41);
    let many = keys[..16].repeat(4_097);
    let bad: [&[u32]; 12] = [
        &many,
        &keys,
        &keys[..81],
        &keys[..79],
        &keys[..1],
        &[1, 0, 0, 0, 1, 0, 0, 0],
        &[1, 0, 0, 0, 2, 0, 0, 0, 1, 9, 9, 9],
        &[0, 0, 0, 0],
        &[10_000, 0, 0, 0],
        &[1, 10_001, 0, 0],
        &[1, 0, 1, 0],
        &[1, 0, 0, 100_000_000],
    ];
    for tariff in bad {
        for key in [0, 1, 2] {
            assert_eq!(code(tariff, key, 0, 0), 42, "{:?}", tariff.get(..12));
        }
    }
    assert_eq!(code(&[9_999, 10_000, 99_999_999, 99_999_999], 1, 0, 0), 41);
}

#[test]
fn the_order_of_the_codes() {
    let (nominal, typed) = (1_000_000_000_000, 100_000_000);
    for (nominal, typed) in [
        (nominal, 0),
        (0, typed),
        (nominal, typed),
        (u64::MAX, u64::MAX),
    ] {
        assert_eq!(code(&[0, 0, 0, 0], 2, nominal, typed), 42);
        for key in [0, 1, 2] {
            assert_eq!(code(&A_TENTH, key, nominal, typed), 1);
        }
    }
    assert_eq!(code(&A_TENTH, 2, nominal - 1, typed - 1), 41);
}

#[test]
fn a_153_the_typed_commission_is_looked_at_with_every_key() {
    assert_eq!(code(&A_TENTH, 1, 25, 100_000_000), 1);
}

#[test]
fn a_154_key_0_large_keys_and_the_empty_tariff() {
    assert_eq!(code(&[0, 1_000, 0, 99_999_999], 0, 25, 5), 42);
    assert_eq!(code(&[], 10_000, 25, 5), 41);
    assert_eq!(code(&[], 1, 25, 5), 41);
    assert_eq!(code(&A_TENTH, 10_000, 25, 5), 41);
    for asked in EACH {
        let kept = (asked.commission)(&[], 0, 25, 5);
        assert_eq!((kept.code, kept.commission), (0, 5));
    }
}

#[test]
fn a_156_the_greatest_product() {
    let most = 999_999_999_999;
    assert_eq!(of_key_1(10_000, 0, 99_999_999, most), 99_999_999);
    assert_eq!(of_key_1(1, 0, 99_999_999, most), 99_999_999);
}

/// The bytes before the call, what both give, and the bytes after it.
fn filled(tariff: &[u32], documents: &[Document]) -> (Filled, Vec<Document>) {
    let [reference, engine] = EACH.map(|asked| {
        let mut documents = documents.to_vec();
        let filled = (asked.fill_commissions)(tariff, documents.as_flattened_mut());
        (filled, documents)
    });
    assert_eq!(reference, engine);
    reference
}

/// The example states key 1, nominal 15000 and commission 30.
#[test]
fn a_tray_gets_the_commissions_of_all_its_documents() {
    let mut worked_out = EXAMPLE;
    worked_out[43..47].copy_from_slice(&[0x00, 0x00, 0x15, 0x00]);
    let kept = stating(EXAMPLE, 0, 15_000, 30);
    let (answer, documents) = filled(&A_TENTH, &[EXAMPLE, kept, EXAMPLE]);
    let expected = Filled {
        code: 0,
        documents: 3,
    };
    assert_eq!(answer, expected);
    assert_eq!(documents, [worked_out, kept, worked_out]);
    assert_eq!(worked_out, stating(EXAMPLE, 1, 15_000, 1_500));
    let (answer, _) = filled(&A_TENTH, &[]);
    assert_eq!((answer.code, answer.documents), (0, 0));
}

#[test]
fn a_refused_tray_keeps_every_byte() {
    let unknown = stating(EXAMPLE, 2, 15_000, 30);
    let with = |mut document: Document, at: usize| {
        document[at] = 0x0A;
        document
    };
    let (key, nominal, commission) = (42, 25, 46);
    for (bad, code) in [
        (unknown, 41),
        (with(EXAMPLE, key), 1),
        (with(EXAMPLE, nominal), 3),
        (with(EXAMPLE, commission), 3),
        (with(unknown, nominal), 3),
        (with(unknown, commission), 3),
        (with(stating(EXAMPLE, 0, 0, 0), commission), 3),
        (with(with(EXAMPLE, nominal), key), 1),
    ] {
        for place in 0..4 {
            let mut documents = vec![EXAMPLE; 4];
            documents[place] = bad;
            documents[3] = if place == 3 { bad } else { unknown };
            let (answer, after) = filled(&A_TENTH, &documents);
            assert_eq!((answer.code, answer.documents), (code, place as u64));
            assert_eq!(after, documents);
        }
    }
}

#[test]
fn a_tray_that_is_no_whole_documents() {
    let bad = [0, 0, 0, 0];
    for asked in EACH {
        for length in [1, 50, 52, 101, 103] {
            let tray = EXAMPLE.repeat(3)[..length].to_vec();
            for (tariff, code) in [(&A_TENTH[..], 25), (&[], 25), (&bad, 42)] {
                let mut lent = tray.clone();
                let expected = Filled { code, documents: 0 };
                assert_eq!((asked.fill_commissions)(tariff, &mut lent), expected);
                assert_eq!(lent, tray);
            }
        }
    }
}

/// More than 16 bits count.
#[test]
fn a_long_tray() {
    let mut documents = vec![EXAMPLE; 70_000];
    let (answer, after) = filled(&A_TENTH, &documents);
    assert_eq!((answer.code, answer.documents), (0, 70_000));
    assert_eq!(after, vec![stating(EXAMPLE, 1, 15_000, 1_500); 70_000]);
    documents[69_999] = stating(EXAMPLE, 2, 15_000, 30);
    let (answer, after) = filled(&A_TENTH, &documents);
    assert_eq!((answer.code, answer.documents), (41, 69_999));
    assert_eq!(after, documents);
}
