//! Calls on a good file one after the other; what it then holds is kept beside them.

use super::contents::Contents;
use super::filling;
use crate::lot_file::lots::MOST_DOCUMENTS;
use crate::lot_file_script::{adding, finding, taking_out, CHECK};
use crate::random::Random;
use crate::session::detail::DOCUMENT;

/// In documents.
const MOST: usize = MOST_DOCUMENTS as usize;

pub struct Course<'a> {
    random: &'a mut Random,
    contents: Contents,
    text: String,
}

impl Course<'_> {
    pub fn new<'a>(random: &'a mut Random, contents: &Contents) -> Course<'a> {
        let text = contents.file(filling(random));
        Course {
            random,
            contents: contents.clone(),
            text,
        }
    }

    /// The questions: so many calls, and where some of the lots are then.
    pub fn calls(mut self, count: usize) -> String {
        for _ in 0..count {
            self.call();
        }
        for _ in 0..3 {
            self.text += &finding(self.contents.some_number(self.random));
        }
        self.text
    }

    fn call(&mut self) {
        match self.random.below(16) {
            0..=4 => {
                let number = self.contents.new_number(self.random);
                let length = self.fitting();
                self.add(number, length);
            }
            5 | 6 => self.add_any(),
            7..=10 => {
                let number = self.contents.some_number(self.random);
                self.take_out(number);
            }
            11 => {
                let number = self.contents.any_number(self.random);
                self.take_out(number);
            }
            12..=14 => {
                let number = self.contents.any_number(self.random);
                self.text += &finding(number);
            }
            _ => self.text += CHECK,
        }
    }

    fn add_any(&mut self) {
        let number = self.contents.any_number(self.random);
        let lengths = [self.fitting(), self.too_long(), self.no_lot()];
        let length = self.random.one_of(&lengths);
        self.add(number, length);
    }

    fn add(&mut self, number: u32, length: usize) {
        self.text += &adding(number, length, filling(self.random));
        self.contents.add(number, length);
    }

    fn take_out(&mut self, number: u32) {
        self.text += &taking_out(number);
        self.contents.take_out(number);
    }

    /// Of a tray that there is room for; often of the longest one, or of a single document.
    fn fitting(&mut self) -> usize {
        let most = (self.contents.room / DOCUMENT).clamp(1, MOST);
        let any = self.random.within(1, most);
        DOCUMENT * self.random.one_of(&[1, any, any.min(4), most])
    }

    /// Of a tray that there is no room for, unless the room is larger than any lot.
    fn too_long(&mut self) -> usize {
        let least = (self.contents.room / DOCUMENT + 1).min(MOST);
        let any = self.random.within(least, MOST);
        DOCUMENT * self.random.one_of(&[least, least, least, any, MOST])
    }

    /// Of a tray that is empty, no whole documents or more than a lot.
    fn no_lot(&mut self) -> usize {
        let whole = self.fitting();
        let part = self.random.within(1, DOCUMENT - 1);
        let too_many = DOCUMENT * (MOST + 1);
        let lengths = [
            0,
            whole - 1,
            whole + 1,
            whole - part,
            too_many,
            too_many + part,
        ];
        self.random.one_of(&lengths)
    }

    /// Every sort of number with every sort of tray; what is not refused comes last.
    pub fn several_faults(mut self) -> String {
        let bad = self.contents.bad_number(self.random);
        let known = self.contents.some_number(self.random);
        let new = self.contents.new_number(self.random);
        for number in [bad, known, new] {
            self.add(number, 0);
            for of_tray in [Self::no_lot, Self::too_long, Self::fitting] {
                let length = of_tray(&mut self);
                self.add(number, length);
            }
        }
        for number in [bad, self.contents.new_number(self.random), known] {
            self.text += &finding(number);
            self.take_out(number);
        }
        self.text
    }
}
