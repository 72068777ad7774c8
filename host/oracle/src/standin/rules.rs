//! Six rules of the real bodies, each of which can be put in the place of document 01's. With all
//! off, which is how the oracle runs, the stand-ins are document 01's. The runner turns some on to
//! find out which rules explain a difference between the two builds.

use std::cell::Cell;

#[derive(Clone, Copy)]
pub(crate) enum Rule {
    /// A range is empty by its bounds alone, not when no key is in it.
    BoundsOnly,
    /// A span ends at the next view's effective start, not at its first key.
    NextEffective,
    /// A span with a next view is not cut at its own visible end.
    VisibleEndForgotten,
    /// An empty span panics.
    EmptySpanPanics,
    /// A visible range that starts excluded panics.
    ExcludedStartPanics,
    /// The empty prefix's range starts unbounded, not at the included empty key.
    EmptyPrefixUnbounded,
}

/// The letters of the rules, in the order above.
const LETTERS: &str = "bnvpxe";

thread_local! {
    static ON: Cell<u8> = const { Cell::new(0) };
}

/// Puts the rules with these letters, and no others, in force on this thread.
pub(crate) fn set(letters: &str) {
    let bits = LETTERS.chars().enumerate().filter(|(_, letter)| letters.contains(*letter));
    ON.set(bits.map(|(i, _)| 1 << i).sum());
}

pub(crate) fn real(rule: Rule) -> bool {
    ON.get() >> rule as u8 & 1 == 1
}
