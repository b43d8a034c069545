//! What an evening's messages are made of.

use super::end::End;
use super::evening::Evening;
use crate::bodies::{self, Document, NOMINAL, PRESENTED, RETURN};

impl Evening {
    /// Documents that the other end accepts.
    pub fn documents(&mut self, presenter: End, operation: u8, count: usize) -> Vec<Document> {
        let receiver = self.at(presenter.other());
        let own = receiver.own;
        let drawees = [&[own], receiver.represented.as_slice()].concat();
        let random = &mut self.draft.random;
        let mut documents: Vec<Document> = (0..count)
            .map(|_| bodies::good_document(random, operation, own, &drawees))
            .collect();
        for document in documents.iter_mut().filter(|_| self.narrow) {
            document[NOMINAL].copy_from_slice(&[0, 0, 0, 0, 0, random.one_of(&[1, 1, 1, 2])]);
            document[43..47].copy_from_slice(&[0, 0, 0, random.one_of(&[0, 0, 0, 1])]);
        }
        documents
    }

    /// How many documents a usual detail has.
    pub fn count(&mut self) -> usize {
        let most = match self.narrow {
            true => 2,
            false => self.draft.random.one_of(&[1, 1, 2, 4, 4, 5, 8, 8, 13, 40]),
        };
        self.draft.random.within(1, most)
    }

    /// An order number, new or not.
    pub fn number(&mut self) -> u64 {
        let last = if self.narrow { 9 } else { 9999 };
        self.draft.random.within(1, last) as u64
    }

    pub fn operation(&mut self) -> u8 {
        self.draft.random.one_of(&[PRESENTED, PRESENTED, RETURN])
    }

    /// An entity that is neither the end's own nor represented there.
    pub fn stranger(&mut self, end: End) -> u16 {
        let known = self.at(end).represented.clone();
        let own = self.at(end).own;
        let mut entity = self.draft.random.entity();
        while entity == own || known.contains(&entity) {
            entity = (entity + 1) % 10_000;
        }
        entity
    }
}
