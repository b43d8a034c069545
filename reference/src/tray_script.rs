//! Tray calls as text: a line has the lengths of presentations and returns in bytes and then the
//! two cursors, and is answered by the check's number and where the next part lies.

use crate::session::trays::Trays;

pub fn play(text: &[u8]) -> Vec<u8> {
    let text = String::from_utf8_lossy(text);
    let mut output = String::new();
    for line in text.lines() {
        let numbers = line.split(' ').map(|word| word.parse().expect(line));
        let numbers: Vec<usize> = numbers.collect();
        output += &answer([numbers[0], numbers[1], numbers[2], numbers[3]]);
        output.push('\n');
    }
    output.into_bytes()
}

pub fn answer(numbers: [usize; 4]) -> String {
    let [presentations, returns, presentations_cursor, returns_cursor] = numbers;
    let (presentations, returns) = (vec![0x11; presentations], vec![0x22; returns]);
    let trays = Trays {
        presentations: &presentations,
        returns: &returns,
        presentations_cursor,
        returns_cursor,
    };
    let part = trays.next_part();
    let place = match part.first() {
        None => "empty".into(),
        Some(0x11) => format!("presentations {}", range(part, &presentations)),
        Some(_) => format!("returns {}", range(part, &returns)),
    };
    format!("{:02} {place}", trays.check())
}

/// Where the part lies in its tray, in documents.
fn range(part: &[u8], tray: &[u8]) -> String {
    let first = part.as_ptr() as usize - tray.as_ptr() as usize;
    format!("{}..{}", first / 51, (first + part.len()) / 51)
}
