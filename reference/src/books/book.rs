//! One book: the list of lots and the open lot of one direction at one end.

use crate::packed;

/// The operation byte and the 51 bytes of a document, its key included.
pub type Entry = (u8, [u8; 51]);

#[derive(Clone, Debug, PartialEq, Eq)]
pub struct Lot {
    pub number: u64,
    pub documents: Vec<Entry>,
}

/// What a message brings, from a send's arguments or from the bytes received.
#[derive(Clone)]
pub enum Message {
    Header(u64),
    Detail(Vec<Entry>),
    LotTotal,
    SessionTotal,
    /// Bytes that are none of these.
    Other,
}

#[derive(Default)]
pub struct Book {
    pub lots: Vec<Lot>,
    pub open: Option<Lot>,
    /// Lots, documents, nominal and commission over the list.
    pub totals: [u64; 4],
}

impl Book {
    /// Where a code leaves the book as it is, nothing is done.
    pub fn enter(&mut self, message: Message, code: u64) {
        match (message, code) {
            (Message::Header(number), 0) => {
                let documents = Vec::new();
                self.open = Some(Lot { number, documents });
            }
            (Message::Detail(documents), 0) => {
                if let Some(lot) = &mut self.open {
                    lot.documents.extend(documents);
                }
            }
            (Message::LotTotal, 0) => self.append(),
            (Message::LotTotal, _) => self.open = None,
            _ => {}
        }
    }

    fn append(&mut self) {
        let Some(lot) = self.open.take() else {
            return;
        };
        let [documents, nominal, commission] = lot.totals();
        for (total, one) in self
            .totals
            .iter_mut()
            .zip([1, documents, nominal, commission])
        {
            *total += one;
        }
        self.lots.push(lot);
    }

    pub fn number_twice(&self) -> Option<u64> {
        let earlier = |at: usize, number| self.lots[..at].iter().any(|lot| lot.number == number);
        let mut numbers = self.lots.iter().map(|lot| lot.number).enumerate();
        let twice = numbers.find(|(at, number)| earlier(*at, *number));
        twice.map(|(_, number)| number)
    }
}

impl Lot {
    pub fn totals(&self) -> [u64; 3] {
        let sum = |first: usize, last: usize| {
            let amounts = self.documents.iter().map(|(_, bytes)| &bytes[first..last]);
            amounts.map(packed::value).sum()
        };
        [self.documents.len() as u64, sum(25, 31), sum(43, 47)]
    }
}
