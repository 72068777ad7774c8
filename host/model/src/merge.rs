//! The two merges. Both give a list of segments.

use crate::law::room_for;
use crate::records::{Manifest, Segment, Size, Tree};
use crate::{Outcome, Refused};

/// "The writer's L0 up to, not including, the first view whose view id or SST id equals the
/// compactor's respective watermark; all of it if none matches. Runs and watermarks are the
/// compactor's."
fn merge(writer: &Tree, compactor: &Tree) -> Tree {
    let mut merged = compactor.clone();
    merged.l0 = writer.l0.clone();
    let compacted = writer.l0.iter().position(|view| {
        Some(view.id) == compactor.view_watermark || Some(view.sst) == compactor.sst_watermark
    });
    if let Some(count) = compacted {
        merged.l0.truncate(count);
    }
    merged
}

/// The tree under a prefix; one that stands for an absent tree is empty and has no watermarks.
fn tree_of(manifest: &Manifest, prefix: &[u8]) -> Option<Tree> {
    manifest.segments.iter().find(|segment| segment.prefix == prefix).map(|segment| segment.tree.clone())
}

fn merged(writer: &Manifest, compactor: &Manifest, prefix: &[u8]) -> Segment {
    let of = |manifest| tree_of(manifest, prefix).unwrap_or_default();
    Segment { prefix: prefix.to_vec(), tree: merge(&of(writer), &of(compactor)) }
}

/// "Refusal 4 counts just that list."
fn finish(segments: Vec<Segment>, room: &Size) -> Outcome<Vec<Segment>> {
    let alone = Manifest { segments, ..Manifest::new() };
    room_for(alone.size(), room)?;
    Ok(alone.segments)
}

/// "Every writer prefix, merged with the compactor's tree or an empty one. A compactor-only empty
/// segment vanishes; one with data is refused."
pub fn from_writer(writer: &Manifest, compactor: &Manifest, room: &Size) -> Outcome<Vec<Segment>> {
    let lost = |segment: &Segment| !segment.tree.is_empty() && tree_of(writer, &segment.prefix).is_none();
    if let Some(place) = compactor.segments.iter().position(lost) {
        return Err(Refused(6, place));
    }
    let segments = writer.segments.iter().map(|segment| merged(writer, compactor, &segment.prefix));
    finish(segments.collect(), room)
}

/// "Prefixes of either side, absent trees empty; results that are empty are dropped. Kept prefixes
/// that nest are refused."
pub fn from_compactor(writer: &Manifest, compactor: &Manifest, room: &Size) -> Outcome<Vec<Segment>> {
    let sides = writer.segments.iter().chain(&compactor.segments);
    let mut prefixes: Vec<_> = sides.map(|segment| segment.prefix.clone()).collect();
    prefixes.sort();
    prefixes.dedup();
    let mut kept: Vec<_> = prefixes.iter().map(|prefix| merged(writer, compactor, prefix)).collect();
    kept.retain(|segment| !segment.tree.is_empty());
    if let Some(place) = kept.windows(2).position(|pair| pair[1].prefix.starts_with(&pair[0].prefix)) {
        return Err(Refused(7, place));
    }
    finish(kept, room)
}
