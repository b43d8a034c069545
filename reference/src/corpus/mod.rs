//! Scripts to compare players with: generated ones in the main, then the blocks of the open
//! points, lines about the format itself and the memory of written bytes; tray calls; and questions
//! about calendar, tariff, check digits and lot file. What the answers must be, the reference says.

pub mod calendar;
pub mod check_digits;
pub mod format;
pub mod lot_file;
pub mod memory;
pub mod tariff;
pub mod trays;

use crate::generate::{self, Kind};
use crate::open_points::block::Block;
use crate::open_points::{self, received};

pub struct Script {
    pub name: String,
    pub text: Vec<u8>,
}

impl Script {
    fn new(name: &str, text: impl Into<Vec<u8>>) -> Script {
        let (name, text) = (name.into(), text.into());
        Script { name, text }
    }
}

/// Tray calls, which are not lines of a session script.
pub fn tray_corpus() -> Vec<Script> {
    vec![Script::new("trays", trays::text())]
}

/// The generated ones come first.
pub fn corpus() -> Vec<Script> {
    let mut scripts = generated();
    scripts.extend(hand_made());
    scripts
}

/// How many seeds of each kind; few of the large ones.
const SEEDS: [(Kind, u64); Kind::ALL.len()] = [
    (Kind::Ordinary, 60),
    (Kind::BadLine, 120),
    (Kind::Clocks, 60),
    (Kind::Damaged, 120),
    (Kind::Edges, 120),
    (Kind::Calls, 120),
    (Kind::Text, 40),
    (Kind::ManyLots, 5),
    (Kind::FullLots, 3),
    (Kind::Memory, 1),
];

/// The short ones first, so that a faulty player is caught soon.
pub fn generated() -> Vec<Script> {
    let mut scripts = Vec::new();
    for (kind, seeds) in SEEDS {
        for seed in 0..seeds {
            let name = format!("{kind:?}, seed {seed}");
            scripts.push(Script::new(&name, generate::script(kind, seed)));
        }
    }
    scripts.sort_by_key(|script| script.text.len());
    scripts
}

/// The short ones first.
pub fn hand_made() -> Vec<Script> {
    let mut scripts = vec![
        Script::new("format", format::script()),
        Script::new("memory", memory::script()),
    ];
    let blocks = open_points::blocks().into_iter();
    for block in blocks.chain(open_points::more_blocks()) {
        scripts.extend(of_block(&block));
    }
    scripts.sort_by_key(|script| script.text.len());
    scripts
}

/// The block's calls, and its detail checks as messages received.
fn of_block(block: &Block) -> Vec<Script> {
    let mut scripts = Vec::new();
    if block.is_script() {
        scripts.push(Script::new(&block.name, block.script()));
    }
    let details = received::scripts(block);
    if !details.is_empty() {
        let name = format!("{}, received", block.name);
        let text: String = details.into_iter().map(|detail| detail.script).collect();
        scripts.push(Script::new(&name, text));
    }
    scripts
}
