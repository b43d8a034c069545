//! Lines with fewer or smaller words.

use crate::hex;

/// The line without its last word, and with each of its words made smaller.
pub fn shorter_lines(line: &[u8]) -> Vec<Vec<u8>> {
    let Ok(text) = std::str::from_utf8(line) else {
        return Vec::new();
    };
    let words: Vec<&str> = text.split_whitespace().collect();
    let mut shorter = Vec::new();
    if words.len() > 2 {
        shorter.push(sentence(&words[..words.len() - 1]));
    }
    for (at, word) in words.iter().enumerate().skip(2) {
        for smaller in smaller_words(word) {
            let mut changed = words.clone();
            changed[at] = &smaller;
            shorter.push(sentence(&changed));
        }
    }
    shorter
}

fn sentence(words: &[&str]) -> Vec<u8> {
    (words.join(" ") + "\n").into_bytes()
}

/// A detail of one document, halves of bytes, and small numbers.
fn smaller_words(word: &str) -> Vec<String> {
    let length = word.len();
    if hex::read(word).is_none() || length < 8 {
        return vec!["0".into(), "1".into(), "-".into()];
    }
    let mut smaller = vec!["-".into()];
    for kept in [24, 26, 32, 102, length / 4 * 2, length - 2] {
        if kept < length {
            smaller.push(word[..kept].to_string());
        }
    }
    smaller
}
