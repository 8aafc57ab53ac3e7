//! Event text on standard input, one line per month 0 to 14 on standard output.

use std::io::Write;

fn main() -> std::io::Result<()> {
    let mut out = Vec::new();
    fast::text::summary(&fast::text::standard_input()?, &mut out);
    fast::text::standard_output().write_all(&out)
}
