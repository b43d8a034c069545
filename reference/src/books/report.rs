//! A report's words, and whether they agree with the books.

use super::book::Message;
use super::direction::Direction;

pub struct Report {
    presented: [u64; 4],
    received: [u64; 4],
    positions: [i64; 2],
    awaited: Awaited,
}

#[derive(Debug, PartialEq, Eq)]
enum Awaited {
    Nothing,
    Session,
    /// Number, documents, nominal, commission.
    Lot([u64; 4]),
}

impl Report {
    /// The close is read and left out: the claim does not speak of it.
    pub fn read(answer: &str) -> Option<Report> {
        let words: Vec<&str> = answer.split(' ').collect();
        let [first, rest @ ..] = words.as_slice() else {
            return None;
        };
        let (presented, rest) = rest.split_first_chunk::<4>()?;
        let (between, rest) = rest.split_first()?;
        let (received, rest) = rest.split_first_chunk::<4>()?;
        let (close, rest) = rest.split_first()?;
        let (positions, awaited) = rest.split_first_chunk::<2>()?;
        let words_hold = [*first, *between] == ["presented", "received"]
            && ["open", "ordered", "forced"].contains(close);
        let report = Report {
            presented: numbers(presented)?,
            received: numbers(received)?,
            positions: [positions[0].parse().ok()?, positions[1].parse().ok()?],
            awaited: awaited_of(awaited)?,
        };
        words_hold.then_some(report)
    }

    pub fn names_a_lot(&self) -> bool {
        matches!(self.awaited, Awaited::Lot(_))
    }

    /// With the books of the direction in which this end presents and of the other.
    pub fn agrees(&self, presents: &Direction, receives: &Direction) -> Result<(), String> {
        let presented = presents.confirmed.totals;
        let received = receives.counted.totals;
        let position = |at: usize| presented[at] as i64 - received[at] as i64;
        same("presented", self.presented, presented)?;
        same("received", self.received, received)?;
        same("positions", self.positions, [position(2), position(3)])?;
        same("awaited", &self.awaited, &expected(presents))
    }
}

/// The presenter's open lot, exactly while the reply to its total is awaited.
fn expected(presents: &Direction) -> Awaited {
    let message = presents.awaited.as_ref().map(|sent| &sent.message);
    match (message, &presents.confirmed.open) {
        (Some(Message::LotTotal), Some(lot)) => {
            let [documents, nominal, commission] = lot.totals();
            Awaited::Lot([lot.number, documents, nominal, commission])
        }
        (Some(Message::SessionTotal), _) => Awaited::Session,
        _ => Awaited::Nothing,
    }
}

fn same<T: PartialEq + std::fmt::Debug>(what: &str, shown: T, booked: T) -> Result<(), String> {
    if shown == booked {
        Ok(())
    } else {
        Err(format!("{what}: {shown:?} shown, {booked:?} in the books"))
    }
}

fn awaited_of(words: &[&str]) -> Option<Awaited> {
    match words {
        ["none"] => Some(Awaited::Nothing),
        ["session"] => Some(Awaited::Session),
        ["lot", rest @ ..] => Some(Awaited::Lot(numbers(rest.try_into().ok()?)?)),
        _ => None,
    }
}

fn numbers(words: &[&str; 4]) -> Option<[u64; 4]> {
    let mut numbers = [0; 4];
    for (number, word) in numbers.iter_mut().zip(words) {
        *number = word.parse().ok()?;
    }
    Some(numbers)
}
