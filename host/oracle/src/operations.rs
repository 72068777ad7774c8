//! Each call, run on the original's own function.

use crate::bytes_range::BytesRange;
use crate::checkpoint::Checkpoint;
use crate::clone::CloneSource;
use crate::convert::{from_manifest, from_segments, from_sst_id, to_manifest, to_range, to_text};
use crate::error::SlateDBError;
use crate::guard::guarded;
use crate::lawful::{self, INPUT_LIMIT, KEY_LIMIT, PREFIX_LIMIT, SOURCE_LIMIT};
use crate::manifest::{
    merge_segments_from_compactor, merge_segments_from_writer, Manifest, ProjectionConfig, Segment,
};
use crate::records::{self, Id, Key, Range};
use crate::words::{from_hex, to_hex, Call, Operation, Projection, Source};
use crate::No::{self, Panic, Refused, Skip};
use bytes::Bytes;
use slatedb_common::DbRand;
use std::collections::BTreeSet;
use std::ops::Bound::Unbounded;
use std::ptr;
use std::sync::atomic::{AtomicUsize, Ordering::Relaxed};
use std::sync::Arc;
use uuid::Uuid;

type Answer = Result<String, No>;

pub fn run(call: &Call) -> Answer {
    if call.room {
        return Err(Skip);
    }
    match &call.operation {
        Operation::Read(manifest) => result(&original(&plain(manifest)?)?),
        Operation::Lookup(manifest, prefix) => lookup(manifest, prefix),
        Operation::Insert(manifest, prefix) => insert(manifest, prefix),
        Operation::MergeFromWriter(writer, compactor) => merge(writer, compactor, true),
        Operation::MergeFromCompactor(writer, compactor) => merge(writer, compactor, false),
        Operation::Select(manifest, range) => select(manifest, range),
        Operation::Project(manifest, projection) => project(manifest, projection),
        Operation::Owned(manifest) => owned(manifest),
        Operation::Clone { manifest, path, checkpoint, fresh } => clone(manifest, path, *checkpoint, fresh),
        Operation::Union { fresh, sources } => union(fresh, sources),
    }
}

/// A lawful manifest; the original has no refusal for any other.
fn plain(bytes: &[u8]) -> Result<records::Manifest, No> {
    if bytes.len() > INPUT_LIMIT {
        return Err(Skip);
    }
    records::Manifest::read(bytes).filter(lawful::is_lawful).ok_or(Skip)
}

fn original(plain: &records::Manifest) -> Result<Manifest, No> {
    guarded(|| to_manifest(plain)).map_err(Panic)
}

fn within(bytes: &[u8], limit: usize) -> Result<(), No> {
    if bytes.len() <= limit {
        Ok(())
    } else {
        Err(Skip)
    }
}

fn result(manifest: &Manifest) -> Answer {
    let manifest = from_manifest(manifest);
    if !lawful::keeps_l1(&manifest) {
        return Err(Skip);
    }
    // L2 to L5 hold of every result; one that breaks them is worth seeing.
    if !lawful::is_lawful(&manifest) {
        return Err(Panic("the result is not lawful".to_string()));
    }
    Ok(to_hex(&manifest.write()))
}

fn index_of(segments: &[Segment], prefix: &[u8]) -> Result<usize, No> {
    let index = segments.iter().position(|segment| *segment.prefix == *prefix);
    index.ok_or_else(|| Panic("no such prefix".to_string()))
}

/// The prefix that stands as `0x..` between two pieces of a message.
fn prefix_in(message: &str, before: &str, after: &str) -> Option<Key> {
    let (_, rest) = message.split_once(before)?;
    let (hex, _) = rest.split_once(after)?;
    let digits = hex.strip_prefix("0x")?;
    from_hex(if digits.is_empty() { "-" } else { digits })
}

fn lookup(manifest: &[u8], prefix: &[u8]) -> Answer {
    within(prefix, PREFIX_LIMIT)?;
    let core = original(&plain(manifest)?)?.core;
    let Some(tree) = core.tree_for_segment(prefix) else {
        return Ok("absent".to_string());
    };
    Ok(match core.segments.iter().position(|segment| ptr::eq(tree, &*segment.tree)) {
        Some(index) => format!("segment {index}"),
        None => "unsegmented".to_string(),
    })
}

fn insert(manifest: &[u8], prefix: &[u8]) -> Answer {
    within(prefix, PREFIX_LIMIT)?;
    let mut manifest = original(&plain(manifest)?)?;
    let count = manifest.core.segments.len();
    let inserted = manifest.core.maybe_insert_tree(&Bytes::copy_from_slice(prefix)).map(|_| ());
    let segments = &manifest.core.segments;
    match inserted {
        Err(SlateDBError::InvalidSegmentPrefix { conflict, .. }) => {
            Err(Refused(3, index_of(segments, &conflict)?))
        }
        Err(error) => Err(Panic(error.to_string())),
        Ok(()) if segments.len() == count => Ok(format!("found {}", index_of(segments, prefix)?)),
        Ok(()) => Ok(format!("entered {} {}", index_of(segments, prefix)?, result(&manifest)?)),
    }
}

fn merge(writer: &[u8], compactor: &[u8], from_writer: bool) -> Answer {
    let (writer, compactor) = (plain(writer)?, plain(compactor)?);
    let (writer, compactor) = (original(&writer)?.core.segments, original(&compactor)?.core.segments);
    // The original's first argument is the side that merges the other in.
    let merged = guarded(|| match from_writer {
        true => merge_segments_from_writer(&compactor, &writer),
        false => merge_segments_from_compactor(&writer, &compactor),
    });
    let merged = merged.map_err(|message| {
        let lost = message.contains("compactor-only segment with data");
        let prefix = prefix_in(&message, "prefix=", " tree=").filter(|_| lost);
        prefix.map_or(Panic(message), |prefix| match index_of(&compactor, &prefix) {
            Ok(index) => Refused(6, index),
            Err(no) => no,
        })
    })?;
    // The original does not look at nesting: 7 is read off its list.
    let nests = merged.windows(2).position(|pair| pair[1].prefix.starts_with(&pair[0].prefix));
    if let Some(index) = nests {
        return Err(Refused(7, index));
    }
    let merged = from_segments(&merged);
    if !lawful::segments_keep_l1(&merged) {
        return Err(Skip);
    }
    Ok(to_hex(&records::write_segments(&merged)))
}

/// A range argument that holds a key, by the build's own emptiness; the original has no refusal 5.
fn argument(range: &Range) -> Result<BytesRange, No> {
    to_range(range).ok_or(Skip)
}

fn select(manifest: &[u8], range: &Range) -> Answer {
    if !range.is_within_limit() {
        return Err(Skip);
    }
    let core = original(&plain(manifest)?)?.core;
    let range = argument(range)?;
    Ok(match core.select_segments(&range) {
        None => "unsegmented".to_string(),
        Some([]) => "window 0 0".to_string(),
        Some(window) => {
            let first = core.segments.iter().position(|segment| ptr::eq(segment, &window[0]));
            let first = first.ok_or_else(|| Panic("a window of another table".to_string()))?;
            format!("window {first} {}", first + window.len())
        }
    })
}

fn owned(manifest: &[u8]) -> Answer {
    let ids = original(&plain(manifest)?)?.owned_ssts();
    let words: Vec<String> = ids.iter().map(|id| to_hex(&from_sst_id(id))).collect();
    Ok(if words.is_empty() { ".".to_string() } else { words.join(",") })
}

// The original asks for an `Arc`, and hands it to no other thread.
#[allow(clippy::arc_with_non_send_sync)]
fn lent(fresh: &[Id]) -> Arc<DbRand> {
    Arc::new(DbRand::lent(fresh.iter().copied().map(Uuid::from_bytes).collect()))
}

/// The result of an operation that draws fresh UUIDs.
fn drawn(manifest: &Manifest, fresh: &DbRand) -> Answer {
    let result = result(manifest)?;
    if fresh.exhausted() {
        Err(Skip)
    } else {
        Ok(result)
    }
}

fn final_missing(message: String) -> No {
    match message.contains("final_checkpoint_id must be present") {
        true => Refused(15, 0),
        false => Panic(message),
    }
}

fn clone(manifest: &[u8], path: &[u8], checkpoint: Id, fresh: &[Id]) -> Answer {
    within(path, KEY_LIMIT)?;
    let parent = original(&plain(manifest)?)?;
    let fresh = lent(fresh);
    let clone = || Manifest::cloned(&parent, to_text(path), Uuid::from_bytes(checkpoint), fresh.clone());
    drawn(&guarded(clone).map_err(final_missing)?, &fresh)
}

const EMPTY: &str = "empty range";

fn project(manifest: &[u8], projection: &Projection) -> Answer {
    let Projection { global, filter, own } = projection;
    let plain = plain(manifest)?;
    let count = plain.segments.len();
    let counted = own.iter().flatten().take(1 + count).flatten();
    if counted.chain(global).any(|range| !range.is_within_limit()) {
        return Err(Skip);
    }
    let mask = filter.map_or(0, |(_, mask)| mask);
    if count < 64 && mask >> count != 0 {
        return Err(Skip);
    }
    let manifest = original(&plain)?;
    let global_range = global.as_ref().map(argument).transpose()?;

    // The original's closures are told a prefix, and that of the unsegmented tree equals that of a
    // segment with the empty prefix. So trees are told apart by the order of the calls: the
    // unsegmented tree, then each segment; of each the filter first, then the projection.
    let mut prefixes = vec![vec![]];
    prefixes.extend(plain.segments.iter().map(|segment| segment.prefix.clone()));
    let turn = Arc::new(Turn { prefixes, next: AtomicUsize::new(0) });
    let mut config = ProjectionConfig { global_range, segment_filter: None, segment_projection: None };
    if let Some((flag, mask)) = *filter {
        let turn = turn.clone();
        config.segment_filter = Some(Arc::new(move |prefix: &[u8]| match turn.take(prefix) {
            0 => flag,
            place => mask >> (place - 1) & 1 == 1,
        }));
    }
    if let Some(own) = own {
        let own: Vec<_> = own.iter().map(|entry| entry.as_ref().map(to_range)).collect();
        let (turn, filtered) = (turn.clone(), filter.is_some());
        config.segment_projection = Some(Arc::new(move |prefix: &[u8]| {
            let place = if filtered { turn.current(prefix) } else { turn.take(prefix) };
            match own.get(place) {
                Some(Some(Some(range))) => Ok(range.clone()),
                Some(Some(None)) => Err(SlateDBError::InvalidProjection {
                    prefix: Bytes::copy_from_slice(prefix),
                    reason: EMPTY.to_string(),
                }),
                _ => Ok(BytesRange::new(Unbounded, Unbounded)),
            }
        }));
    }
    match guarded(|| Manifest::projected(&manifest, &config)).map_err(Panic)? {
        Ok(projected) => Ok(format!("{} {}", mask.count_ones(), result(&projected)?)),
        Err(SlateDBError::InvalidProjection { reason, .. }) if reason == EMPTY => {
            Err(Refused(8, turn.last()))
        }
        Err(SlateDBError::InvalidProjection { reason, .. }) if reason.contains("not contained") => {
            Err(Refused(9, turn.last()))
        }
        Err(error) => Err(Panic(error.to_string())),
    }
}

/// Whose turn it is among the trees of a projection.
struct Turn {
    prefixes: Vec<Key>,
    next: AtomicUsize,
}

impl Turn {
    fn take(&self, prefix: &[u8]) -> usize {
        self.next.fetch_add(1, Relaxed);
        self.current(prefix)
    }

    fn current(&self, prefix: &[u8]) -> usize {
        assert_eq!(self.prefixes[self.last()], prefix, "the order of the calls");
        self.last()
    }

    fn last(&self) -> usize {
        self.next.load(Relaxed) - 1
    }
}

fn union(fresh: &[Id], given: &[Source]) -> Answer {
    if given.len() > SOURCE_LIMIT {
        return Err(Skip);
    }
    given.iter().try_for_each(|source| within(&source.path, KEY_LIMIT))?;
    let plains = given.iter().map(|source| plain(&source.manifest)).collect::<Result<Vec<_>, No>>()?;
    let mut sources = vec![];
    for (source, plain) in given.iter().zip(&plains) {
        sources.push(CloneSource {
            path: to_text(&source.path).into(),
            manifest: original(plain)?,
            checkpoint: Checkpoint { id: Uuid::from_bytes(source.checkpoint) },
        });
    }
    let fresh = lent(fresh);
    match guarded(|| Manifest::cloned_from_union(sources, fresh.clone())).map_err(final_missing)? {
        Ok(united) => drawn(&united, &fresh),
        Err(SlateDBError::InvalidUnion(message)) => Err(union_refusal(message, &plains)),
        Err(error) => Err(Panic(error.to_string())),
    }
}

fn union_refusal(message: String, plains: &[records::Manifest]) -> No {
    let says = |piece: &str| message.contains(piece);
    if says("disagree on segment extractor") {
        Refused(11, 0)
    } else if says("overlapping key ranges in segment") {
        // "First such place in the used sources' sorted distinct prefixes."
        let used = plains.iter().filter(|plain| plain.trees().any(|tree| tree.views().next().is_some()));
        let prefixes: BTreeSet<&Key> = used.flat_map(|plain| &plain.segments).map(|s| &s.prefix).collect();
        let place =
            prefix_in(&message, " in segment `", "`").and_then(|p| prefixes.iter().position(|q| **q == p));
        place.map_or(Panic(message), |place| Refused(12, 1 + place))
    } else if says("overlapping key ranges") {
        Refused(12, 0)
    } else if says("no extractor is configured") {
        Refused(13, 0)
    } else if says("not an antichain") {
        Refused(14, 0)
    } else {
        Panic(message)
    }
}
