//! The open points and the other hand-made scripts over the line: its player and its check.

use reference::compare::{circular, difference};
use reference::open_points::block::Block;
use reference::{corpus, line, open_points, script};

fn blocks() -> impl Iterator<Item = Block> {
    let more = open_points::more_blocks();
    open_points::blocks().into_iter().chain(more)
}

fn passed(result: Result<(), String>) {
    result.unwrap_or_else(|failure| panic!("{failure}"));
}

#[test]
fn scripts() {
    for block in blocks().filter(Block::is_script) {
        passed(open_points::check(&block, line::play));
    }
}

#[test]
fn details() {
    for block in blocks() {
        passed(open_points::check_details(&block, line::check));
        passed(open_points::check_received(&block, line::play));
    }
}

#[test]
fn the_hand_made_scripts() {
    for made in corpus::hand_made() {
        let difference = difference(&made.text, script::play, line::play);
        assert_eq!(difference, None, "{}", made.name);
        let difference = circular::difference(&made.text, line::play);
        assert_eq!(difference, None, "{}, by the circular's rules", made.name);
    }
}
