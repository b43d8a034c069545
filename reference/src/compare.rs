//! Two implementations play the same script, and their answers are compared line by line.

pub mod circular;
pub mod questions;

pub use crate::shortest::shortest;

pub type Play = fn(&[u8]) -> Vec<u8>;

/// The first answers that differ; a missing one is empty.
#[derive(Clone, Debug, PartialEq, Eq)]
pub struct Difference {
    /// From 1, among the answers.
    pub line: usize,
    pub reference: Vec<u8>,
    pub engine: Vec<u8>,
}

pub fn difference(script: &[u8], reference: Play, engine: Play) -> Option<Difference> {
    between(&reference(script), &engine(script))
}

/// Byte by byte.
pub fn between(of_reference: &[u8], of_engine: &[u8]) -> Option<Difference> {
    let mut reference = answers(of_reference);
    let mut engine = answers(of_engine);
    let mut line = 0;
    loop {
        line += 1;
        let pair = (reference.next(), engine.next());
        if pair == (None, None) {
            return None;
        }
        if pair.0 != pair.1 {
            return Some(Difference::new(line, pair.0, pair.1));
        }
    }
}

/// The line feeds belong to the answers, so a missing last one is seen.
fn answers(output: &[u8]) -> impl Iterator<Item = &[u8]> {
    output.split_inclusive(|&byte| byte == b'\n')
}

impl Difference {
    fn new(line: usize, reference: Option<&[u8]>, engine: Option<&[u8]>) -> Difference {
        Difference {
            line,
            reference: reference.unwrap_or_default().to_vec(),
            engine: engine.unwrap_or_default().to_vec(),
        }
    }
}
