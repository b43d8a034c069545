//! Questions as text, a line each: a word that says what is asked, and the words of its values.

use std::fmt::Display;
use std::str::FromStr;

/// The question's first words with those of a list behind them.
pub fn line(beginning: &str, list: &[impl Display]) -> String {
    let values = list.iter().map(|value| format!(" {value}"));
    format!("{beginning}{}\n", values.collect::<String>())
}

/// What is said to each question in turn.
pub fn answered(text: &[u8], mut answer: impl FnMut(&str, &[&str]) -> String) -> Vec<u8> {
    let text = String::from_utf8_lossy(text);
    let mut output = String::new();
    for line in text.lines() {
        let words: Vec<&str> = line.split(' ').collect();
        output += &answer(words[0], &words[1..]);
    }
    output.into_bytes()
}

/// Panics where a word is none, as the words stand in a test's data.
pub fn numbers<T: FromStr>(words: &[&str]) -> Vec<T> {
    words.iter().map(|word| number(word)).collect()
}

pub fn number<T: FromStr>(word: &str) -> T {
    let number = word.parse();
    number.unwrap_or_else(|_| panic!("{word} is no number"))
}
