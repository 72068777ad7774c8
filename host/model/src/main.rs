//! One call a line on standard input, one answer a line on standard output.

use std::io::{self, BufRead, Write};

fn main() -> io::Result<()> {
    let mut input = io::stdin().lock();
    let mut output = io::BufWriter::new(io::stdout().lock());
    let mut line = Vec::new();
    while input.read_until(b'\n', &mut line)? > 0 {
        if line.last() == Some(&b'\n') {
            line.pop();
        }
        // A line that is no UTF-8 turns into one with strange letters, which is no call either.
        let text = String::from_utf8_lossy(&line);
        if !text.is_empty() && !text.starts_with('#') {
            writeln!(output, "{}", model::answer(&text))?;
        }
        line.clear();
    }
    output.flush()
}
