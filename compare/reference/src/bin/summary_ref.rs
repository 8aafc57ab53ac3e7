//! Event text on standard input, one line per month 0 to 14 on standard output.

use std::io::{self, Read, Write};

fn main() -> io::Result<()> {
    let mut text = Vec::new();
    io::stdin().lock().read_to_end(&mut text)?;
    let run = reference::text::run(&text);
    io::stdout().lock().write_all(reference::summary::print(&run).as_bytes())
}
