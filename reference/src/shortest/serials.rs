//! A message can be taken out of a script if the later ones of its direction move up by one.

/// A line that hands a message over as bytes, cut at its serial, which is written in decimal.
struct Handed<'a> {
    /// The end and all else before the serial.
    end: &'a str,
    before: &'a str,
    serial: u64,
    after: &'a str,
}

/// Where the serial stands among the digits of a message.
const PLACE: std::ops::Range<usize> = 16..24;

fn read(line: &[u8]) -> Option<Handed<'_>> {
    let text = std::str::from_utf8(line).ok()?;
    let mut words = text.split(' ');
    let (name, end, _, bytes) = (words.next()?, words.next()?, words.next()?, words.next()?);
    let serial = bytes.get(PLACE)?.parse().ok()?;
    let at = text.find(bytes)?;
    (name == "receive").then_some(Handed {
        end,
        before: &text[..at + PLACE.start],
        serial,
        after: &text[at + PLACE.end..],
    })
}

/// None if the line at this place hands no message over.
pub fn without(lines: &[Vec<u8>], at: usize) -> Option<Vec<Vec<u8>>> {
    let gone = read(&lines[at])?;
    let kept = lines
        .iter()
        .enumerate()
        .filter(|(other, _)| *other != at)
        .map(|(_, line)| moved_up(line, &gone))
        .collect();
    Some(kept)
}

fn moved_up(line: &[u8], gone: &Handed) -> Vec<u8> {
    match read(line) {
        Some(other) if other.end == gone.end && other.serial > gone.serial => {
            let serial = other.serial - 1;
            format!("{}{serial:08}{}", other.before, other.after).into_bytes()
        }
        _ => line.to_vec(),
    }
}
