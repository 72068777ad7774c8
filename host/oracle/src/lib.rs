//! The oracle: slatedb 0.16.0's src/manifest/mod.rs, byte for byte, behind the line protocol.
//!
//! Two answers go beyond the protocol. `skip`: the call asks for something of which the Rust has no
//! counterpart (refusals 1, 2, 4, 5, 10, 16, 18, 19, or a room). `panic ..`: the Rust panicked where
//! document 01 names no refusal; only the real bodies do that.

// The originals hold more than the operations need, and their style is their own.
#[allow(dead_code, unused_imports, clippy::all)]
mod manifest;
#[allow(dead_code, clippy::all)]
mod prefix_extractor;

#[cfg(not(feature = "real"))]
#[path = "standin/bytes_range.rs"]
mod bytes_range;
#[cfg(not(feature = "real"))]
#[path = "standin/db_state.rs"]
#[allow(dead_code)]
mod db_state;
#[cfg(not(feature = "real"))]
#[path = "standin/rules.rs"]
mod rules;

#[cfg(feature = "real")]
#[path = "real/bytes_range.rs"]
#[allow(dead_code, clippy::all)]
mod bytes_range;
#[cfg(feature = "real")]
#[path = "real/comparable_range.rs"]
#[allow(dead_code, clippy::all)]
mod comparable_range;
#[cfg(feature = "real")]
#[path = "stubs/config.rs"]
mod config;
#[cfg(feature = "real")]
#[path = "real/db_state.rs"]
#[allow(dead_code, clippy::all)]
mod db_state;
#[cfg(feature = "real")]
#[path = "stubs/mem_table.rs"]
#[allow(dead_code)]
mod mem_table;
#[cfg(feature = "real")]
#[path = "stubs/reader.rs"]
#[allow(dead_code)]
mod reader;

#[path = "stubs/checkpoint.rs"]
mod checkpoint;
#[path = "stubs/clone.rs"]
mod clone;
#[path = "stubs/error.rs"]
#[allow(dead_code)]
mod error;
#[path = "stubs/seq_tracker.rs"]
mod seq_tracker;
#[path = "stubs/utils.rs"]
mod utils;

mod convert;
mod guard;
mod lawful;
mod msgpack;
mod operations;
mod records;
#[cfg(not(feature = "real"))]
pub mod timed;
mod words;

use std::io::{self, BufRead, Write};

/// Why a call has no result.
enum No {
    Unknown,
    Skip,
    Refused(u32, usize),
    Panic(String),
}

/// The answer to one call.
pub fn answer(line: &str) -> String {
    let called = words::parse(line).ok_or(No::Unknown);
    // Any panic that an operation does not expect is an answer too: no input ends the program.
    let result = called.and_then(|call| guard::guarded(|| operations::run(&call)).map_err(No::Panic)?);
    match result {
        Ok(result) => format!("ok {result}"),
        Err(No::Unknown) => "unknown".to_string(),
        Err(No::Skip) => "skip".to_string(),
        Err(No::Refused(number, place)) => format!("refused {number} at {place}"),
        Err(No::Panic(message)) => format!("panic {}", message.replace('\n', " ")),
    }
}

/// The answer with some of the stand-ins' rules replaced by those of the real bodies: see rules.rs.
#[cfg(not(feature = "real"))]
pub fn answer_with(letters: &str, line: &str) -> String {
    rules::set(letters);
    let answer = answer(line);
    rules::set("");
    answer
}

/// Answers every call on standard input.
pub fn serve() -> io::Result<()> {
    let mut input = io::stdin().lock();
    let mut output = io::BufWriter::new(io::stdout().lock());
    let mut line = vec![];
    while input.read_until(b'\n', &mut line)? > 0 {
        line.pop_if(|last| *last == b'\n');
        // A line that is no UTF-8 turns into one with strange letters, which is no call either.
        let call = String::from_utf8_lossy(&line);
        if !call.is_empty() && !call.starts_with('#') {
            writeln!(output, "{}", answer(&call))?;
        }
        line.clear();
    }
    output.flush()
}
