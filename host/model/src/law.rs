//! What makes a manifest lawful, and what fits.

use crate::records::{Manifest, Run, Size, View};
use crate::{Outcome, Refused};

/// The numbers of L1.
pub const LIMITS: Size = Size { segments: 64, views: 512, runs: 128, borrows: 32, ids: 512, bytes: 8192 };
pub const SHORT: usize = 32;
pub const LONG: usize = 64;
pub const SOURCES: usize = 8;
pub const INPUT: usize = 65_536;

/// Refusal 1, at the first broken rule.
pub fn lawful(manifest: &Manifest) -> Outcome<()> {
    let rules = [l1, l2, l3, l4, l5];
    match rules.iter().position(|holds| !holds(manifest)) {
        None => Ok(()),
        Some(place) => Err(Refused(1, place + 1)),
    }
}

fn l1(manifest: &Manifest) -> bool {
    manifest.size().fits(&LIMITS)
        && manifest.short_strings().iter().all(|string| string.len() <= SHORT)
        && manifest.long_strings().iter().all(|string| string.len() <= LONG)
}

/// "Prefixes strictly ascending as bytes."
fn l2(manifest: &Manifest) -> bool {
    manifest.segments.windows(2).all(|pair| pair[0].prefix < pair[1].prefix)
}

/// "No prefix begins another."
fn l3(manifest: &Manifest) -> bool {
    let segments = &manifest.segments;
    let begins = |i: usize, j: usize| segments[j].prefix.starts_with(&segments[i].prefix);
    (0..segments.len()).all(|i| (0..segments.len()).all(|j| i == j || !begins(i, j)))
}

/// "First key not above a known last key; a view's physical range meets its visible range in some
/// key."
fn l4(manifest: &Manifest) -> bool {
    let holds = |view: &&View| {
        view.last.as_ref().is_none_or(|last| view.first <= *last) && !view.effective().is_empty()
    };
    manifest.views().iter().all(holds)
}

/// "A run has a view; first keys strictly ascend; a known last key is below the next first key."
fn l5(manifest: &Manifest) -> bool {
    let follows = |pair: &[View]| {
        pair[0].first < pair[1].first && pair[0].last.as_ref().is_none_or(|last| *last < pair[1].first)
    };
    let holds = |run: &Run| !run.views.is_empty() && run.views.windows(2).all(follows);
    manifest.trees().iter().all(|tree| tree.runs.iter().all(holds))
}

/// Refusal 4: "result breaks a number in L1, or a lent output is too short".
pub fn room_for(size: Size, room: &Size) -> Outcome<()> {
    if size.fits(&LIMITS) && size.fits(room) {
        Ok(())
    } else {
        Err(Refused(4, 0))
    }
}

/// Refusal 2, for an argument of bytes.
pub fn within(bytes: &[u8], limit: usize) -> Outcome<()> {
    if bytes.len() <= limit {
        Ok(())
    } else {
        Err(Refused(2, 0))
    }
}
