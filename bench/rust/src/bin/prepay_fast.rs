//! Event text on standard input, what document 01 says on standard output.

use fast::text;

fn main() -> std::io::Result<()> {
    let input = text::standard_input()?;
    let mut output = text::standard_output();
    let mut sink = text::Pieces::new(&mut *output);
    text::prepay(&input, &mut sink);
    sink.end()
}
