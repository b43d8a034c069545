//! Plays the session script on standard input and writes its answers to standard output.

use reference::script;
use std::io::{self, Read, Write};

fn main() -> io::Result<()> {
    let mut text = Vec::new();
    io::stdin().read_to_end(&mut text)?;
    io::stdout().write_all(&script::play(&text))
}
