//! A stand-in for a port that dies, to show that the fuzzer finds it: it answers as the model does, until a call selects a
//! window that does not begin at the first segment.

use std::io::{self, BufRead, Write};

pub fn serve() -> io::Result<()> {
    let mut output = io::stdout();
    for line in io::stdin().lock().lines() {
        let answer = model::answer(&line?);
        if answer.starts_with("ok window ") && !answer.starts_with("ok window 0 ") {
            std::process::abort();
        }
        writeln!(output, "{answer}")?;
    }
    Ok(())
}
