//! Prints the statement of the interval file on standard input, as the engine's own `tell` does.

use std::io::{Read, Write, stdin, stdout};

fn main() -> std::io::Result<()> {
    let mut interval = Vec::new();
    stdin().take(reference::TELL_READS as u64).read_to_end(&mut interval)?;
    stdout().write_all(reference::tell(&interval).as_bytes())
}
