//! Projection.

use crate::keys::{Bound, Range};
use crate::law::room_for;
use crate::records::{Manifest, Run, Size, Tree, View};
use crate::{Outcome, Refused};

pub struct Filter {
    pub unsegmented: bool,
    pub mask: u64,
}

pub struct Projection {
    pub global: Option<Range>,
    pub filter: Option<Filter>,
    /// The unsegmented tree's range first, then one per segment; `None` is a missing one.
    pub own: Option<Vec<Option<Range>>>,
}

/// What becomes of a tree.
enum Fate {
    Drop,
    Stay,
    Project(Range),
}

pub fn project(manifest: &Manifest, how: &Projection, room: &Size) -> Outcome<(u32, Manifest)> {
    if how.global.as_ref().is_some_and(Range::is_empty) {
        return Err(Refused(5, 0));
    }
    let mask = how.filter.as_ref().map_or(0, |filter| filter.mask);
    if let Some(highest) = (0..64).rev().find(|bit| mask >> bit & 1 == 1) {
        if highest >= manifest.segments.len() {
            return Err(Refused(10, highest));
        }
    }
    // Every tree's fate is settled before any is acted on: 8 and 9 come at the lowest place.
    let whole = fate(how, 0, &[])?;
    let mut parts = vec![];
    for (i, segment) in manifest.segments.iter().enumerate() {
        parts.push(fate(how, i + 1, &segment.prefix)?);
    }
    let mut result = manifest.clone();
    match &whole {
        // "Dropping the unsegmented tree clears its watermarks; projecting keeps them."
        Fate::Drop => result.tree = Tree::default(),
        Fate::Stay => {}
        Fate::Project(range) => project_tree(&mut result.tree, range),
    }
    result.segments.clear();
    for (segment, fate) in manifest.segments.iter().zip(&parts) {
        let mut segment = segment.clone();
        match fate {
            Fate::Drop => continue,
            // "One that only passed the filter stays, empty or not."
            Fate::Stay => {}
            Fate::Project(range) => {
                project_tree(&mut segment.tree, range);
                if segment.tree.is_empty() {
                    continue;
                }
            }
        }
        result.segments.push(segment);
    }
    // "None of them set copies the manifest unchanged."
    if how.global.is_some() || how.filter.is_some() || how.own.is_some() {
        drop_unused_borrows(&mut result);
    }
    room_for(result.size(), room)?;
    Ok((mask.count_ones(), result))
}

/// The fate of the tree at a place: 0 for the unsegmented one, i+1 for segment i.
fn fate(how: &Projection, place: usize, prefix: &[u8]) -> Outcome<Fate> {
    if let Some(filter) = &how.filter {
        let kept = if place == 0 { filter.unsegmented } else { filter.mask >> (place - 1) & 1 == 1 };
        // "A filtered-out tree is not examined further."
        if !kept {
            return Ok(Fate::Drop);
        }
    }
    let Some(table) = &how.own else {
        // The global range alone is not met with the prefix's.
        return Ok(how.global.clone().map_or(Fate::Stay, Fate::Project));
    };
    let mut range =
        table.get(place).cloned().flatten().unwrap_or(Range::new(Bound::Unbounded, Bound::Unbounded));
    let all = Range::of_prefix(prefix);
    // "A tree's own range has its unbounded ends replaced by those of its prefix."
    if range.start == Bound::Unbounded {
        range.start = all.start.clone();
    }
    if range.end == Bound::Unbounded {
        range.end = all.end.clone();
    }
    if range.is_empty() {
        return Err(Refused(8, place));
    }
    // "Meeting it with the prefix's range must leave its bounds unchanged."
    if range.meet(&all) != range {
        return Err(Refused(9, place));
    }
    if let Some(global) = &how.global {
        range = range.meet(global);
    }
    Ok(if range.is_empty() { Fate::Drop } else { Fate::Project(range) })
}

fn project_tree(tree: &mut Tree, range: &Range) {
    tree.l0 = tree.l0.iter().filter_map(|view| project_view(view, None, range)).collect();
    for run in &mut tree.runs {
        *run = project_run(run, range);
    }
    tree.runs.retain(|run| !run.views.is_empty());
}

fn project_run(run: &Run, range: &Range) -> Run {
    // The next view is that of the run as it was.
    let views = run.views.iter().enumerate();
    let views = views.filter_map(|(i, view)| project_view(view, run.views.get(i + 1), range));
    Run { id: run.id, views: views.collect() }
}

/// "Projecting a view makes span met with range its visible range; the view goes if that is empty
/// or holds no physical key."
fn project_view(view: &View, next: Option<&View>, range: &Range) -> Option<View> {
    let visible = view.span(next).meet(range);
    if visible.is_empty() || visible.meet(&view.physical()).is_empty() {
        return None;
    }
    Some(View { visible: Some(visible), ..view.clone() })
}

/// "Then borrowed ids not used by any view go, then borrows with no ids."
fn drop_unused_borrows(manifest: &mut Manifest) {
    let used: Vec<_> = manifest.views().iter().map(|view| view.sst).collect();
    for borrow in &mut manifest.borrows {
        borrow.ids.retain(|id| used.contains(id));
    }
    manifest.borrows.retain(|borrow| !borrow.ids.is_empty());
}
