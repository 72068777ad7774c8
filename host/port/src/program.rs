//! The program `host`: one call a line on standard input, one answer a line on standard output.

use crate::{answer, use_pages, OPERATIONS};
use std::io::{self, BufRead, BufReader, Write};
use std::os::raw::{c_char, c_int};
use std::panic;

const USAGE: &str = "usage: host               answers the calls on standard input
       host --pages       the same, and a call that reads or writes past what it was lent ends the program
       host --operations  names the operations that the port has";

/// C's `main`, and not Rust's, since host/build links the program as one of C.
#[no_mangle]
pub extern "C" fn main(_: c_int, _: *const *const c_char) -> c_int {
    panic::set_hook(Box::new(|_| {}));
    let words: Vec<String> = std::env::args().skip(1).collect();
    let done = match words.iter().map(String::as_str).collect::<Vec<_>>()[..] {
        [] => serve(),
        ["--pages"] => {
            use_pages();
            serve()
        }
        ["--operations"] => writeln!(io::stdout(), "{}", OPERATIONS.join("\n")),
        _ => {
            eprintln!("{USAGE}");
            return 2;
        }
    };
    // Whoever reads may have seen enough.
    c_int::from(done.is_err())
}

fn serve() -> io::Result<()> {
    let mut input = BufReader::with_capacity(1 << 16, io::stdin());
    let mut output = io::BufWriter::with_capacity(1 << 16, io::stdout());
    let mut line = vec![];
    loop {
        // Nothing is held back while more calls are waited for.
        if input.buffer().is_empty() {
            output.flush()?;
        }
        if input.read_until(b'\n', &mut line)? == 0 {
            return output.flush();
        }
        if line.last() == Some(&b'\n') {
            line.pop();
        }
        if !line.is_empty() && line[0] != b'#' {
            // A line that is no text is no call.
            let told = std::str::from_utf8(&line).map_or_else(|_| "unknown".to_string(), answer);
            writeln!(output, "{told}")?;
        }
        line.clear();
    }
}
