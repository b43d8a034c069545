//! A script that writes more than is remembered, 1 MiB. It leaves 6,890 bytes to a message of
//! 10,412, and fills what is left to the last byte by shorter ones.

use crate::open_points::{notation, FRESH_PAIR};

/// A's lots of longest details, then replies of B. A's own replies are given in hexadecimal, so
/// that they are not written here.
pub fn script() -> Vec<u8> {
    let full = format!("detail A 75600 30 {}", documents(200));
    let shorter = format!("detail A 75600 30 {}", documents(129));
    let mut sends: Vec<(String, u8)> = Vec::new();
    for lot in 1..=8 {
        sends.push((format!("header A 75600 21000000 1 {lot}"), 86));
        let details = if lot < 8 { 13 } else { 10 };
        sends.extend(vec![(full.clone(), 86); details]);
        sends.extend((lot == 8).then(|| (shorter.clone(), 86)));
        sends.push(("lot A 75600".into(), 87));
    }
    sends.push(("session A 75600".into(), 97));
    let answered = sends.iter().zip(1..);
    let mut text = FRESH_PAIR.to_string();
    text.extend(answered.map(|((call, operation), serial)| {
        let reply = notation::bytes(&format!("$R({serial},{operation},0)"));
        format!("{call}\nreply A 75600 {}\n", notation::hex(&reply))
    }));
    (text + &replies_of_b() + &copies()).into_bytes()
}

/// The first number that `copies` names.
pub const FIRST_COPY: usize = 112;
/// The numbers of what did not fit.
pub const FORGOTTEN: [usize; 2] = [116, 126];

fn documents(count: usize) -> String {
    notation::hex(&notation::bytes(&format!("$D*{count}")))
}

/// Six of 16 bytes still fit, a seventh does not.
fn replies_of_b() -> String {
    let message = notation::hex(&notation::bytes("$E(1)+00"));
    format!("receive B 75600 {message}\n").repeat(7)
}

fn copies() -> String {
    let numbers = FIRST_COPY..=FIRST_COPY + 15;
    let named = numbers.map(|number| format!("reply A 75600 @{number}\n"));
    named.collect()
}
