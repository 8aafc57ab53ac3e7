//! Event text on standard input, the lines of document 01 on standard output.

use std::io::{self, Read, Write};

fn main() -> io::Result<()> {
    let mut text = Vec::new();
    io::stdin().lock().read_to_end(&mut text)?;
    io::stdout().lock().write_all(reference::text::prepay(&text).as_bytes())
}
