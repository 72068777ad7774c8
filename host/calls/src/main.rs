//! `calls SEED COUNT [OPERATION ..]` writes COUNT random calls of each operation; `calls short` writes
//! the short inputs, exhaustively.

use calls::{random, short, Style, OPERATIONS};
use std::io::{self, BufWriter, Write};
use std::process::ExitCode;

fn main() -> ExitCode {
    let words: Vec<String> = std::env::args().skip(1).collect();
    match write(&words) {
        // A reader that has seen enough is no fault.
        Some(Ok(())) | Some(Err(_)) => ExitCode::SUCCESS,
        None => {
            eprintln!("usage: calls SEED COUNT [OPERATION ..] | calls short");
            ExitCode::FAILURE
        }
    }
}

fn write(words: &[String]) -> Option<io::Result<()>> {
    if words == ["short"] {
        return Some(print(short()));
    }
    let (seed, count) = (words.first()?.parse().ok()?, words.get(1)?.parse().ok()?);
    let named = |operation: &&&str| words.len() == 2 || words[2..].iter().any(|word| word == **operation);
    let chosen: Vec<_> = OPERATIONS.iter().filter(named).collect();
    let style = Style { spoilt: true, included: false };
    Some(chosen.iter().try_for_each(|operation| print(random(seed, operation, style).take(count))))
}

fn print(calls: impl Iterator<Item = String>) -> io::Result<()> {
    let mut output = BufWriter::new(io::stdout().lock());
    for call in calls {
        writeln!(output, "{call}")?;
    }
    output.flush()
}
