//! Lookup, insert, selection.

use crate::keys::Range;
use crate::law::room_for;
use crate::records::{Manifest, Segment, Size, Tree};
use crate::{Outcome, Refused};

pub enum Found {
    Unsegmented,
    Segment(usize),
    Absent,
}

pub fn lookup(manifest: &Manifest, prefix: &[u8]) -> Found {
    // "Looking up the empty prefix always answers the unsegmented tree."
    if prefix.is_empty() {
        return Found::Unsegmented;
    }
    match held(manifest, prefix) {
        Some(index) => Found::Segment(index),
        None => Found::Absent,
    }
}

fn held(manifest: &Manifest, prefix: &[u8]) -> Option<usize> {
    manifest.segments.iter().position(|segment| segment.prefix == prefix)
}

pub enum Inserted {
    Found(usize),
    Entered(usize, Box<Manifest>),
}

pub fn insert(manifest: &Manifest, prefix: &[u8], room: &Size) -> Outcome<Inserted> {
    // "A held prefix is found, even in a full list."
    if let Some(index) = held(manifest, prefix) {
        return Ok(Inserted::Found(index));
    }
    let segments = &manifest.segments;
    let place = segments.iter().filter(|segment| segment.prefix.as_slice() < prefix).count();
    // "The conflict is the immediate successor if it extends the candidate, else the predecessor."
    if place < segments.len() && segments[place].prefix.starts_with(prefix) {
        return Err(Refused(3, place));
    }
    if place > 0 && prefix.starts_with(&segments[place - 1].prefix) {
        return Err(Refused(3, place - 1));
    }
    let mut result = manifest.clone();
    result.segments.insert(place, Segment { prefix: prefix.to_vec(), tree: Tree::default() });
    room_for(result.size(), room)?;
    Ok(Inserted::Entered(place, Box::new(result)))
}

pub enum Selected {
    Unsegmented,
    Window(usize, usize),
}

pub fn select(manifest: &Manifest, range: &Range) -> Outcome<Selected> {
    if range.is_empty() {
        return Err(Refused(5, 0));
    }
    if manifest.segments.is_empty() {
        return Ok(Selected::Unsegmented);
    }
    // Demand 3: "exactly the segments with some key in the range that begins with their prefix".
    let chosen = |segment: &Segment| !Range::of_prefix(&segment.prefix).meet(range).is_empty();
    let count = manifest.segments.iter().filter(|segment| chosen(segment)).count();
    let first = manifest.segments.iter().position(chosen).unwrap_or(0);
    Ok(Selected::Window(first, first + count))
}
