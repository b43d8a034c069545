//! The detail checks of a block asked by a script: B has a lot open and receives the body.

use super::block::{Asked, Block, Line};
use super::notation;

const LONGEST_BODY: usize = 10_400;

/// A check line as a script of its own, with the line that it comes from.
pub struct Received<'a> {
    pub line: &'a Line,
    /// The start of B, a header, the body, and a lot total for one document of the paper's.
    pub script: String,
}

impl Received<'_> {
    /// The place of the body among the script's calls.
    pub const BODY: usize = 2;
}

/// Of the checks that a session can come to.
pub fn scripts(block: &Block) -> Vec<Received<'_>> {
    let scripts = block.lines.iter().filter_map(|line| match &line.asked {
        Asked::Check {
            body,
            own,
            represented,
        } if starts(*own, represented) && travels(body) => {
            let script = script(body, *own, represented);
            Some(Received { line, script })
        }
        _ => None,
    });
    scripts.collect()
}

fn starts(own: u16, represented: &[u16]) -> bool {
    let mut entities = represented.iter().chain([&own]);
    represented.len() <= 8 && entities.all(|&entity| entity <= 9999)
}

/// The line takes the body, and its third byte does not make it another message.
fn travels(body: &[u8]) -> bool {
    let is_other = matches!(body.get(2), Some(0x01 | 0x80 | 0x90));
    (1..=LONGEST_BODY).contains(&body.len()) && !is_other
}

fn script(body: &[u8], own: u16, represented: &[u16]) -> String {
    let partner = if own == 81 { 82 } else { 81 };
    let entities: String = represented.iter().map(|code| format!(" {code}")).collect();
    let receive = |serial: u8, body: &[u8]| {
        let envelope = notation::bytes(&format!("$E({serial},1,{partner},{own})"));
        let message = notation::hex(&[&envelope, body].concat());
        format!("receive B 75600 {message}\n")
    };
    let header = notation::bytes(&format!("$HDR(7,21000000,140328,{partner},{own})"));
    let total = notation::bytes("$LT(7,1,15000,30)");
    format!("start B 140328 {own} {partner}{entities}\n")
        + &receive(1, &header)
        + &receive(2, body)
        + &receive(3, &total)
}
