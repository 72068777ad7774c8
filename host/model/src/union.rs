//! Union.

use crate::borrows::{finish, handed_on, owned};
use crate::keys::{end_order, start_order, Key, Range};
use crate::records::{Borrow, Bytes16, Manifest, Segment, Size, Tree, View};
use crate::{Outcome, Refused};

pub struct Source {
    pub manifest: Manifest,
    pub path: Key,
    pub checkpoint: Bytes16,
}

pub fn union(sources: &[Source], fresh: &[Bytes16], room: &Size) -> Outcome<Manifest> {
    let mut result = Manifest::new();
    if let Some(first) = sources.first() {
        result.extractor = first.manifest.extractor.clone();
    }
    // "Extractor names differ among all sources; absent is not empty."
    if sources.iter().any(|source| source.manifest.extractor != result.extractor) {
        return Err(Refused(11, 0));
    }
    // "Last_l0_seq the greatest over all sources."
    result.last_l0_seq = sources.iter().map(|source| source.manifest.last_l0_seq).max().unwrap_or(0);

    let used = used(sources);
    if result.extractor.is_none() {
        result.tree = join_unsegmented(&used)?;
    } else {
        result.segments = join_segments(&used)?;
    }
    number_runs(&mut result);
    result.borrows = borrows(&used)?;
    finish(result, fresh, room)
}

/// The range from the first start to the last end of the views' effective ranges.
fn bounding(views: &[&View]) -> Option<Range> {
    let ranges: Vec<_> = views.iter().map(|view| view.effective()).collect();
    let start = ranges.iter().map(|range| &range.start).min_by(|a, b| start_order(a, b))?;
    let end = ranges.iter().map(|range| &range.end).max_by(|a, b| end_order(a, b))?;
    Some(Range::new(start.clone(), end.clone()))
}

/// "Sources with no views are set aside. The others are sorted stably by the start of their
/// bounding effective range."
fn used(sources: &[Source]) -> Vec<(Range, &Source)> {
    let mut used = vec![];
    for source in sources {
        if let Some(range) = bounding(&source.manifest.views()) {
            used.push((range, source));
        }
    }
    used.sort_by(|(a, _), (b, _)| start_order(&a.start, &b.start));
    used
}

/// Whether two adjacent ranges have a key in common.
fn overlap(ranges: &[&Range]) -> bool {
    ranges.windows(2).any(|pair| !pair[0].meet(pair[1]).is_empty())
}

fn join<'a>(trees: impl Iterator<Item = &'a Tree>) -> Tree {
    let mut joined = Tree::default();
    for tree in trees {
        joined.l0.extend(tree.l0.iter().cloned());
        joined.runs.extend(tree.runs.iter().cloned());
    }
    joined
}

/// "Without an extractor: adjacent ranges disjoint, no segments, unsegmented trees joined in
/// order."
fn join_unsegmented(used: &[(Range, &Source)]) -> Outcome<Tree> {
    if overlap(&used.iter().map(|(range, _)| range).collect::<Vec<_>>()) {
        return Err(Refused(12, 0));
    }
    if used.iter().any(|(_, source)| !source.manifest.segments.is_empty()) {
        return Err(Refused(13, 0));
    }
    Ok(join(used.iter().map(|(_, source)| &source.manifest.tree)))
}

/// "With one: only named segments are joined, per prefix, those with views, sorted by their own
/// start and disjoint."
fn join_segments(used: &[(Range, &Source)]) -> Outcome<Vec<Segment>> {
    let all: Vec<&Segment> = used.iter().flat_map(|(_, source)| &source.manifest.segments).collect();
    let mut prefixes: Vec<&Key> = all.iter().map(|segment| &segment.prefix).collect();
    prefixes.sort();
    prefixes.dedup();
    if prefixes.windows(2).any(|pair| pair[1].starts_with(pair[0])) {
        return Err(Refused(14, 0));
    }
    let mut joined = vec![];
    for (place, prefix) in prefixes.into_iter().enumerate() {
        let trees = all.iter().filter(|segment| segment.prefix == *prefix).map(|segment| &segment.tree);
        let mut ranged: Vec<_> =
            trees.filter_map(|tree| bounding(&tree.views()).map(|range| (range, tree))).collect();
        ranged.sort_by(|(a, _), (b, _)| start_order(&a.start, &b.start));
        if overlap(&ranged.iter().map(|(range, _)| range).collect::<Vec<_>>()) {
            return Err(Refused(12, place + 1));
        }
        if !ranged.is_empty() {
            let tree = join(ranged.iter().map(|(_, tree)| *tree));
            joined.push(Segment { prefix: prefix.clone(), tree });
        }
    }
    Ok(joined)
}

/// "Run ids descend from count-1 to 0 through the unsegmented tree, then segments in order."
fn number_runs(manifest: &mut Manifest) {
    let segments = manifest.segments.iter_mut().flat_map(|segment| &mut segment.tree.runs);
    let mut runs: Vec<_> = manifest.tree.runs.iter_mut().chain(segments).collect();
    let count = runs.len() as u32;
    for (run, id) in runs.iter_mut().zip((0..count).rev()) {
        run.id = id;
    }
}

fn borrows(used: &[(Range, &Source)]) -> Outcome<Vec<Borrow>> {
    // "Each used source's borrows with source checkpoint := final, then its owned ids if any under
    // its own path and checkpoint."
    let mut members = vec![];
    for (_, source) in used {
        members.extend(handed_on(&source.manifest)?);
        let ids = owned(&source.manifest);
        if !ids.is_empty() {
            members.push(Borrow { path: source.path.clone(), source: source.checkpoint, last: None, ids });
        }
    }
    // "Grouped by path and id set, ids ascending, once each, ordered by path bytes then id list."
    for member in &mut members {
        member.ids.sort();
        member.ids.dedup();
    }
    members.sort_by(|a, b| (&a.path, &a.ids).cmp(&(&b.path, &b.ids)));
    let groups = members.chunk_by(|a, b| a.path == b.path && a.ids == b.ids);
    Ok(groups.map(|group| Borrow { source: checkpoint_of(group, used), ..group[0].clone() }).collect())
}

/// "A group's checkpoint is the one supplied with that path (that path's last source as sorted) if
/// a member has it, else the smallest."
fn checkpoint_of(group: &[Borrow], used: &[(Range, &Source)]) -> Bytes16 {
    let last = used.iter().rfind(|(_, source)| source.path == group[0].path);
    let supplied = last.map(|(_, source)| source.checkpoint);
    let smallest = group.iter().map(|member| member.source).min().expect("a group has a member");
    match supplied {
        Some(supplied) if group.iter().any(|member| member.source == supplied) => supplied,
        _ => smallest,
    }
}
