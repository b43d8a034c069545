//! Tariff questions as text, a line each. The tariff's numbers come last.
//!
//! | question | answer |
//! | --- | --- |
//! | `commission KEY NOMINAL TYPED NUMBER ...` | the code and the commission |
//! | `tray BYTES NUMBER ...` | the code, the documents, and all bytes of the tray and behind it then |

use crate::hex;
use crate::questions::{answered, line, number, numbers};
use crate::tariff::commission::{commission, Commissioned};
use crate::tariff::tray::{fill_commissions, Filled};

/// What stands behind the lent bytes, and must stay.
const BEYOND: [u8; 8] = [0xEE; 8];

/// The question about one document.
pub fn document(tariff: &[u32], key: u32, nominal: u64, typed: u64) -> String {
    line(&format!("commission {key} {nominal} {typed}"), tariff)
}

/// The question about these documents.
pub fn tray(tariff: &[u32], tray: &[u8]) -> String {
    line(&format!("tray {}", hex::write(tray)), tariff)
}

/// The two functions that are asked.
#[derive(Clone, Copy)]
pub struct Commissions {
    /// Of tariff, key, nominal and typed commission; whether the document is presented or a
    /// return is not asked.
    pub commission: fn(&[u32], u32, u64, u64) -> Commissioned,
    pub fill_commissions: fn(&[u32], &mut [u8]) -> Filled,
}

/// The answers of the reference.
pub fn play(text: &[u8]) -> Vec<u8> {
    Commissions::REFERENCE.play(text)
}

impl Commissions {
    pub const REFERENCE: Commissions = Commissions {
        commission,
        fill_commissions,
    };

    pub fn play(&self, text: &[u8]) -> Vec<u8> {
        answered(text, |question, words| match question {
            "commission" => self.document(words),
            "tray" => self.tray(words),
            _ => panic!("{question} is no question"),
        })
    }

    fn document(&self, words: &[&str]) -> String {
        let (key, nominal, typed) = (number(words[0]), number(words[1]), number(words[2]));
        let Commissioned { code, commission } =
            (self.commission)(&numbers(&words[3..]), key, nominal, typed);
        format!("{code:02} {commission}\n")
    }

    fn tray(&self, words: &[&str]) -> String {
        let mut bytes = hex::read(words[0]).expect("bytes in hexadecimal");
        let lent = bytes.len();
        bytes.extend(BEYOND);
        let Filled { code, documents } =
            (self.fill_commissions)(&numbers(&words[1..]), &mut bytes[..lent]);
        format!("{code:02} {documents} {}\n", hex::write(&bytes))
    }
}
