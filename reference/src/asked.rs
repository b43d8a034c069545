//! Which lines of a script get an answer.

/// Without its line feed; a comment may not be longer either.
pub const LONGEST_LINE: usize = 24_000;

/// The lines that get an answer, each of them one: all but those that are passed over.
pub fn asked(script: &[u8]) -> impl Iterator<Item = &[u8]> {
    let lines = script.split(|&byte| byte == b'\n');
    lines.filter(|line| !is_passed_over(line))
}

/// The text does not say whether a long line of spaces is passed over; it is bad here, as a long
/// comment is.
fn is_passed_over(line: &[u8]) -> bool {
    let says_nothing = line.starts_with(b"#") || line.iter().all(|&byte| byte == b' ');
    says_nothing && line.len() <= LONGEST_LINE
}
