//! Makes a failing script shorter as long as it still fails. A try that no longer fails, for
//! instance because a number of written bytes now means others, is simply not taken.

mod numbers;
mod serials;
mod words;

use crate::script;
use std::ops::Range;
use std::time::{Duration, Instant};

const MOST_TRIES: usize = 4_000;
const MOST_TIME: Duration = Duration::from_secs(20);

type Lines = Vec<Vec<u8>>;

pub fn shortest(script: &[u8], fails: &dyn Fn(&[u8]) -> bool) -> Vec<u8> {
    let mut search = Search {
        best: lines(script),
        fails,
        tries: 0,
        until: Instant::now() + MOST_TIME,
    };
    search.cut_tail();
    search.remove_lines();
    search.name_bytes();
    while search.gets_shorter() {}
    joined(&search.best)
}

fn lines(script: &[u8]) -> Lines {
    let lines = script.split_inclusive(|&byte| byte == b'\n');
    lines.map(<[u8]>::to_vec).collect()
}

fn joined(lines: &[Vec<u8>]) -> Vec<u8> {
    lines.concat()
}

struct Search<'a> {
    best: Lines,
    fails: &'a dyn Fn(&[u8]) -> bool,
    tries: usize,
    until: Instant,
}

impl Search<'_> {
    fn is_over(&self) -> bool {
        self.tries >= MOST_TRIES || Instant::now() >= self.until
    }

    /// Takes the lines if they still fail.
    fn attempt(&mut self, lines: Lines) -> bool {
        if self.is_over() {
            return false;
        }
        self.tries += 1;
        let fails = (self.fails)(&joined(&lines));
        if fails {
            self.best = lines;
        }
        fails
    }

    fn gets_shorter(&mut self) -> bool {
        let before = joined(&self.best).len();
        self.remove_lines();
        self.remove_messages();
        self.shorten_words();
        joined(&self.best).len() < before
    }

    /// By halves: a failure early in a long script is then near its end at once.
    fn cut_tail(&mut self) {
        let mut step = self.best.len() / 2;
        while step > 0 && !self.is_over() {
            let kept = self.best.len().saturating_sub(step);
            if kept == 0 || !self.attempt(self.best[..kept].to_vec()) {
                step /= 2;
            }
        }
    }

    /// Ever smaller stretches, from the end towards the beginning.
    fn remove_lines(&mut self) {
        let mut size = self.best.len().div_ceil(2);
        while size > 0 && !self.is_over() {
            let mut end = self.best.len();
            while end > 0 {
                let start = end.saturating_sub(size);
                self.remove(start..end);
                end = start.min(self.best.len());
            }
            size /= 2;
        }
    }

    fn remove(&mut self, gone: Range<usize>) {
        let rest = [&self.best[..gone.start], &self.best[gone.end..]].concat();
        if !self.attempt(rest) {
            self.attempt(numbers::without(&self.best, gone));
        }
    }

    /// Writes out the bytes that `@K` stands for, so that lines no longer need each other.
    fn name_bytes(&mut self) {
        let output = script::play(&joined(&self.best));
        let named = self
            .best
            .iter()
            .map(|line| with_bytes(line, &output))
            .collect();
        self.attempt(named);
    }

    fn remove_messages(&mut self) {
        for at in (0..self.best.len()).rev() {
            if let Some(rest) = serials::without(&self.best, at) {
                self.attempt(rest);
            }
        }
    }

    fn shorten_words(&mut self) {
        for at in (0..self.best.len()).rev() {
            for shorter in words::shorter_lines(&self.best[at]) {
                let mut lines = self.best.clone();
                if at < lines.len() && shorter.len() < lines[at].len() {
                    lines[at] = shorter;
                    self.attempt(lines);
                }
            }
        }
    }
}

fn with_bytes(line: &[u8], output: &[u8]) -> Vec<u8> {
    let text = String::from_utf8_lossy(line);
    let Some(at) = text.find('@') else {
        return line.to_vec();
    };
    let (head, tail) = text.split_at(at);
    let (word, rest) = tail.split_at(tail.find([' ', '\n']).unwrap_or(tail.len()));
    let bytes = written(word, output).unwrap_or(word.into());
    format!("{head}{bytes}{rest}").into_bytes()
}

/// What the answers say after the number.
fn written(word: &str, output: &[u8]) -> Option<String> {
    let output = std::str::from_utf8(output).ok()?;
    let (_, rest) = output.split_once(&format!(" {word} "))?;
    rest.lines().next().map(str::to_string)
}
