//! The benchmark: each operation from bytes to bytes, port against original, and beside it the operation alone, on what
//! was read before. It prints a table.

mod cases;
mod clock;
mod growth;
#[cfg(feature = "msgpack")]
mod msgpack;
#[cfg(feature = "program")]
mod program;
mod sources;
mod tables;

use cases::{Both, Case};

/// The table, as Markdown. `near` is the sample near every limit.
pub fn table(near: &[u8]) -> String {
    let mut text = "| operation | manifest | port | original | ratio | alone: port | original | ratio |\n\
        |---|---|---|---|---|---|---|---|\n"
        .to_string();
    let small = ("small", cases::small(), &sources::SMALL);
    for (name, manifest, shape) in [small, ("near every limit", near.to_vec(), &sources::LARGE)] {
        let manifests = sources::manifests(shape);
        let sources = sources::sources(&manifests);
        let union = cases::union(&sources);
        for Case { operation, whole, alone } in cases::all(&manifest).into_iter().chain([union]) {
            text += &format!("| {operation} | {name} | {} | {} |\n", cells(whole), cells(alone));
        }
    }
    text
}

/// How the times grow with the manifest.
pub fn growth() -> String {
    growth::table()
}

/// Two times and their ratio, where they are known.
fn cells(both: Option<Both>) -> String {
    let time = |time: Option<f64>| time.map_or("-".to_string(), |time| format!("{:.2} µs", time / 1000.0));
    let (port, other) = match both {
        None => (None, None),
        Some(Both { mut port, other }) => {
            (Some(clock::best(&mut port)), other.map(|mut work| clock::best(&mut work)))
        }
    };
    let ratio = port.zip(other).map_or("-".to_string(), |(port, other)| format!("{:.2}", port / other));
    format!("{} | {} | {ratio}", time(port), time(other))
}
