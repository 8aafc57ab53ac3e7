//! Event text on standard input, the page of the month that its argument names on standard output.

use std::io::{self, Read, Write};
use std::os::unix::ffi::OsStringExt;
use std::process::exit;

fn main() -> io::Result<()> {
    let args: Vec<Vec<u8>> = std::env::args_os().skip(1).map(|a| a.into_vec()).collect();
    let Some(month) = reference::page::argument(&args) else {
        eprintln!("page: expected one argument, the month, a number as in the event text");
        exit(2);
    };
    let mut text = Vec::new();
    io::stdin().lock().read_to_end(&mut text)?;
    let run = reference::text::run(&text);
    io::stdout().lock().write_all(reference::page::print(&run, month).as_bytes())
}
