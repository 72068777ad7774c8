//! The line protocol: the words of a call, the order in which they are judged, and the answer.

use crate::borrows;
use crate::keys::Range;
use crate::law::{lawful, room_for, within, INPUT, LIMITS, LONG, SHORT, SOURCES};
use crate::merge;
use crate::pack;
use crate::parse::parse;
use crate::project::{project, Filter, Projection};
use crate::records::{Bytes16, Manifest, Segment, Size};
use crate::segments::{insert, lookup, select, Found, Inserted, Selected};
use crate::union::{union, Source};
use crate::{Outcome, Refused};

/// The answer to one call.
pub fn answer(line: &str) -> String {
    match call(line) {
        None => "unknown".to_string(),
        Some(Ok(result)) => format!("ok {result}"),
        Some(Err(Refused(number, place))) => format!("refused {number} at {place}"),
    }
}

/// `None` for a line that is no call.
fn call(line: &str) -> Option<Outcome<String>> {
    let mut words: Vec<&str> = line.split(' ').collect();
    let mut room = LIMITS;
    if let Some(numbers) = words[0].strip_prefix("room=") {
        room = parse_room(numbers)?;
        words.remove(0);
    }
    let room = &room;
    Some(match words.as_slice() {
        ["read", bytes] => read_call(&hex(bytes)?, room),
        ["lookup", manifest, prefix] => lookup_call(&hex(manifest)?, &hex(prefix)?),
        ["insert", manifest, prefix] => insert_call(&hex(manifest)?, &hex(prefix)?, room),
        ["merge_from_writer", writer, compactor] => {
            merge_call(merge::from_writer, &hex(writer)?, &hex(compactor)?, room)
        }
        ["merge_from_compactor", writer, compactor] => {
            merge_call(merge::from_compactor, &hex(writer)?, &hex(compactor)?, room)
        }
        ["select", manifest, range] => select_call(&hex(manifest)?, &parse_range(range)?),
        ["project", manifest, global, filter, own] => {
            let how = Projection {
                global: optional(global, parse_range)?,
                filter: optional(filter, parse_filter)?,
                own: optional(own, parse_own)?,
            };
            project_call(&hex(manifest)?, &how, room)
        }
        ["owned", manifest] => owned_call(&hex(manifest)?, room),
        ["clone", manifest, path, checkpoint, fresh] => {
            let (path, checkpoint, fresh) = (hex(path)?, id(checkpoint)?, ids(fresh)?);
            clone_call(&hex(manifest)?, &path, checkpoint, &fresh, room)
        }
        ["union", fresh, sources @ ..] => {
            let sources: Option<Vec<_>> = sources.iter().map(|source| parse_source(source)).collect();
            union_call(&ids(fresh)?, &sources?, room)
        }
        _ => return None,
    })
}

// The words.

fn hex(word: &str) -> Option<Vec<u8>> {
    if word == "-" {
        return Some(vec![]);
    }
    let digit = |c: &u8| match c {
        b'0'..=b'9' => Some(c - b'0'),
        b'a'..=b'f' => Some(c - b'a' + 10),
        _ => None,
    };
    if word.is_empty() || word.len() % 2 == 1 {
        return None;
    }
    word.as_bytes().chunks(2).map(|pair| Some(digit(&pair[0])? << 4 | digit(&pair[1])?)).collect()
}

fn unhex(bytes: &[u8]) -> String {
    if bytes.is_empty() {
        return "-".to_string();
    }
    let digit = |nibble: u8| char::from(b"0123456789abcdef"[usize::from(nibble)]);
    bytes.iter().flat_map(|byte| [digit(byte / 16), digit(byte % 16)]).collect()
}

fn id(word: &str) -> Option<Bytes16> {
    hex(word)?.try_into().ok()
}

fn ids(word: &str) -> Option<Vec<Bytes16>> {
    Some(optional(word, |word| word.split(',').map(id).collect())?.unwrap_or_default())
}

/// "An absent value is `.`"; `None` is a word of no such form.
fn optional<T>(word: &str, present: impl Fn(&str) -> Option<T>) -> Option<Option<T>> {
    if word == "." {
        Some(None)
    } else {
        present(word).map(Some)
    }
}

fn number(word: &str) -> Option<u64> {
    if word.bytes().all(|c| c.is_ascii_digit()) {
        word.parse().ok()
    } else {
        None
    }
}

fn parse_room(numbers: &str) -> Option<Size> {
    let numbers: Option<Vec<u64>> = numbers.split(',').map(number).collect();
    let [segments, views, runs, borrows, ids, bytes] = numbers?.try_into().ok()?;
    Some(Size { segments, views, runs, borrows, ids, bytes })
}

fn parse_range(word: &str) -> Option<Range> {
    parse(&hex(word)?).ok()?.range().ok()
}

fn parse_filter(word: &str) -> Option<Filter> {
    let (flag, mask) = word.split_once(':')?;
    let unsegmented = match flag {
        "0" => false,
        "1" => true,
        _ => return None,
    };
    let mask: [u8; 8] = hex(mask)?.try_into().ok()?;
    Some(Filter { unsegmented, mask: u64::from_be_bytes(mask) })
}

fn parse_own(word: &str) -> Option<Vec<Option<Range>>> {
    word.split(',').map(|entry| optional(entry, parse_range)).collect()
}

/// A source as it was given, its manifest not read yet.
struct Given {
    manifest: Vec<u8>,
    path: Vec<u8>,
    checkpoint: Bytes16,
}

fn parse_source(word: &str) -> Option<Given> {
    match word.split(':').collect::<Vec<_>>().as_slice() {
        [manifest, path, checkpoint] => {
            Some(Given { manifest: hex(manifest)?, path: hex(path)?, checkpoint: id(checkpoint)? })
        }
        _ => None,
    }
}

// The calls: 2 for what needs no manifest, then each manifest, then the operation.

/// "Reading: 18, 19, 1."
fn read(bytes: &[u8]) -> Outcome<Manifest> {
    let manifest = parse(bytes)?.manifest()?;
    lawful(&manifest)?;
    Ok(manifest)
}

fn within_range(range: &Range) -> Outcome<()> {
    let keys = [&range.start, &range.end].into_iter().filter_map(|bound| bound.key());
    keys.into_iter().try_for_each(|key| within(key, LONG))
}

fn read_call(bytes: &[u8], room: &Size) -> Outcome<String> {
    within(bytes, INPUT)?;
    let manifest = read(bytes)?;
    room_for(manifest.size(), room)?;
    Ok(unhex(&pack::manifest(&manifest)))
}

fn lookup_call(manifest: &[u8], prefix: &[u8]) -> Outcome<String> {
    within(manifest, INPUT)?;
    within(prefix, SHORT)?;
    Ok(match lookup(&read(manifest)?, prefix) {
        Found::Unsegmented => "unsegmented".to_string(),
        Found::Segment(index) => format!("segment {index}"),
        Found::Absent => "absent".to_string(),
    })
}

fn insert_call(manifest: &[u8], prefix: &[u8], room: &Size) -> Outcome<String> {
    within(manifest, INPUT)?;
    within(prefix, SHORT)?;
    Ok(match insert(&read(manifest)?, prefix, room)? {
        Inserted::Found(index) => format!("found {index}"),
        Inserted::Entered(index, manifest) => {
            format!("entered {index} {}", unhex(&pack::manifest(&manifest)))
        }
    })
}

type Merge = fn(&Manifest, &Manifest, &Size) -> Outcome<Vec<Segment>>;

fn merge_call(merge: Merge, writer: &[u8], compactor: &[u8], room: &Size) -> Outcome<String> {
    within(writer, INPUT)?;
    within(compactor, INPUT)?;
    let segments = merge(&read(writer)?, &read(compactor)?, room)?;
    Ok(unhex(&pack::segments(&segments)))
}

fn select_call(manifest: &[u8], range: &Range) -> Outcome<String> {
    within(manifest, INPUT)?;
    within_range(range)?;
    Ok(match select(&read(manifest)?, range)? {
        Selected::Unsegmented => "unsegmented".to_string(),
        Selected::Window(from, to) => format!("window {from} {to}"),
    })
}

fn project_call(bytes: &[u8], how: &Projection, room: &Size) -> Outcome<String> {
    within(bytes, INPUT)?;
    how.global.iter().try_for_each(within_range)?;
    let manifest = parse(bytes)?.manifest()?;
    // "Missing: unbounded; excess: unread; all others count for refusal 2."
    let own = how.own.iter().flatten().take(1 + manifest.segments.len());
    own.flatten().try_for_each(within_range)?;
    lawful(&manifest)?;
    let (count, result) = project(&manifest, how, room)?;
    Ok(format!("{count} {}", unhex(&pack::manifest(&result))))
}

fn owned_call(manifest: &[u8], room: &Size) -> Outcome<String> {
    within(manifest, INPUT)?;
    let ids = borrows::owned_within(&read(manifest)?, room)?;
    if ids.is_empty() {
        return Ok(".".to_string());
    }
    Ok(ids.iter().map(|id| unhex(&id.0)).collect::<Vec<_>>().join(","))
}

fn clone_call(
    manifest: &[u8],
    path: &[u8],
    checkpoint: Bytes16,
    fresh: &[Bytes16],
    room: &Size,
) -> Outcome<String> {
    within(manifest, INPUT)?;
    within(path, LONG)?;
    let result = borrows::clone(&read(manifest)?, path, checkpoint, fresh, room)?;
    Ok(unhex(&pack::manifest(&result)))
}

fn union_call(fresh: &[Bytes16], given: &[Given], room: &Size) -> Outcome<String> {
    if given.len() > SOURCES {
        return Err(Refused(2, 0));
    }
    for source in given {
        within(&source.manifest, INPUT)?;
        within(&source.path, LONG)?;
    }
    let mut sources = vec![];
    for Given { manifest, path, checkpoint } in given {
        sources.push(Source { manifest: read(manifest)?, path: path.clone(), checkpoint: *checkpoint });
    }
    Ok(unhex(&pack::manifest(&union(&sources, fresh, room)?)))
}
