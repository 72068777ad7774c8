//! Whether two answers agree.

use crate::room;

pub fn operation(call: &str) -> &str {
    let words =
        call.strip_prefix("room=").and_then(|rest| rest.split_once(' ')).map_or(call, |(_, rest)| rest);
    words.split(' ').next().unwrap_or_default()
}

/// `ok`, `refused 3`, `skip`: an answer without what follows.
pub fn kind(answer: &str) -> String {
    let words: Vec<&str> = answer.split(' ').collect();
    match words.as_slice() {
        ["refused", number, ..] => format!("refused {number}"),
        [first, ..] => first.to_string(),
        [] => String::new(),
    }
}

#[derive(Debug, PartialEq)]
pub enum Verdict {
    Same,
    /// One has no counterpart of what the other answers.
    Skipped,
    Different,
}

/// The refusals of which the original Rust has no counterpart.
const ADDED: [&str; 8] = [
    "refused 1",
    "refused 2",
    "refused 4",
    "refused 5",
    "refused 10",
    "refused 16",
    "refused 18",
    "refused 19",
];

/// Compares the reference's answer with another. The reference is asked again where it skips a call
/// for its room: what it answers without the room says what the room must come to.
pub fn judge(call: &str, reference: &str, other: &str, again: impl Fn(&str) -> String) -> Verdict {
    let same = |same: bool| if same { Verdict::Same } else { Verdict::Different };
    match (reference, other) {
        ("skip", "skip") => Verdict::Skipped,
        (_, "skip") => judge(call, other, reference, again),
        ("skip", _) => match room::split(call) {
            None if ADDED.contains(&kind(other).as_str()) => Verdict::Skipped,
            // It skipped what it has an answer for.
            None => Verdict::Different,
            Some((room, bare)) => match again(bare).as_str() {
                "skip" => Verdict::Skipped,
                answer => same(room::expected(&room, bare, answer) == other),
            },
        },
        _ => same(reference == other),
    }
}
