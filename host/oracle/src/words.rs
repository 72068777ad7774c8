//! The words of a call. A line that is no call gives `None`, whatever its manifests hold.

use crate::msgpack;
use crate::records::{Id, Key, Range};

pub struct Call {
    /// The call lends a room of its own.
    pub room: bool,
    pub operation: Operation,
}

pub enum Operation {
    Read(Vec<u8>),
    Lookup(Vec<u8>, Key),
    Insert(Vec<u8>, Key),
    MergeFromWriter(Vec<u8>, Vec<u8>),
    MergeFromCompactor(Vec<u8>, Vec<u8>),
    Select(Vec<u8>, Range),
    Project(Vec<u8>, Projection),
    Owned(Vec<u8>),
    Clone { manifest: Vec<u8>, path: Key, checkpoint: Id, fresh: Vec<Id> },
    Union { fresh: Vec<Id>, sources: Vec<Source> },
}

pub struct Projection {
    pub global: Option<Range>,
    /// The flag of the unsegmented tree, and the mask.
    pub filter: Option<(bool, u64)>,
    pub own: Option<Vec<Option<Range>>>,
}

pub struct Source {
    pub manifest: Vec<u8>,
    pub path: Key,
    pub checkpoint: Id,
}

pub fn parse(line: &str) -> Option<Call> {
    match line.strip_prefix("room=") {
        None => Some(Call { room: false, operation: operation(line)? }),
        Some(rest) => {
            let (places, call) = rest.split_once(' ')?;
            let places: Vec<&str> = places.split(',').collect();
            let good = places.len() == 6 && places.iter().all(|place| is_number(place));
            good.then_some(Call { room: true, operation: operation(call)? })
        }
    }
}

fn operation(line: &str) -> Option<Operation> {
    let words: Vec<&str> = line.split(' ').collect();
    Some(match words[..] {
        ["read", bytes] => Operation::Read(from_hex(bytes)?),
        ["lookup", manifest, prefix] => Operation::Lookup(from_hex(manifest)?, from_hex(prefix)?),
        ["insert", manifest, prefix] => Operation::Insert(from_hex(manifest)?, from_hex(prefix)?),
        ["merge_from_writer", writer, compactor] => {
            Operation::MergeFromWriter(from_hex(writer)?, from_hex(compactor)?)
        }
        ["merge_from_compactor", writer, compactor] => {
            Operation::MergeFromCompactor(from_hex(writer)?, from_hex(compactor)?)
        }
        ["select", manifest, wanted] => Operation::Select(from_hex(manifest)?, range(wanted)?),
        ["project", manifest, global, flags, own] => {
            let global = optional(global, range)?;
            let filter = optional(flags, filter)?;
            let own = optional(own, |table| table.split(',').map(|entry| optional(entry, range)).collect())?;
            Operation::Project(from_hex(manifest)?, Projection { global, filter, own })
        }
        ["owned", manifest] => Operation::Owned(from_hex(manifest)?),
        ["clone", manifest, path, checkpoint, fresh] => Operation::Clone {
            manifest: from_hex(manifest)?,
            path: from_hex(path)?,
            checkpoint: id(checkpoint)?,
            fresh: ids(fresh)?,
        },
        ["union", fresh, ref sources @ ..] => {
            let sources = sources.iter().map(|word| source(word)).collect::<Option<_>>()?;
            Operation::Union { fresh: ids(fresh)?, sources }
        }
        _ => return None,
    })
}

/// A decimal number below 2^64.
fn is_number(word: &str) -> bool {
    word.chars().all(|c| c.is_ascii_digit()) && word.parse::<u64>().is_ok()
}

pub fn from_hex(word: &str) -> Option<Vec<u8>> {
    let lower = |c: u8| matches!(c, b'0'..=b'9' | b'a'..=b'f');
    match word {
        "-" => Some(vec![]),
        "" => None,
        _ if word.len() % 2 == 1 || !word.bytes().all(lower) => None,
        _ => (0..word.len()).step_by(2).map(|i| u8::from_str_radix(&word[i..i + 2], 16).ok()).collect(),
    }
}

pub fn to_hex(bytes: &[u8]) -> String {
    const DIGITS: &[u8; 16] = b"0123456789abcdef";
    if bytes.is_empty() {
        return "-".to_string();
    }
    let digit = |nibble: u8| char::from(DIGITS[usize::from(nibble)]);
    bytes.iter().flat_map(|byte| [digit(byte >> 4), digit(byte & 15)]).collect()
}

fn id(word: &str) -> Option<Id> {
    from_hex(word)?.try_into().ok()
}

fn ids(word: &str) -> Option<Vec<Id>> {
    if word == "." {
        return Some(vec![]);
    }
    word.split(',').map(id).collect()
}

fn optional<T>(word: &str, present: impl Fn(&str) -> Option<T>) -> Option<Option<T>> {
    if word == "." {
        return Some(None);
    }
    Some(Some(present(word)?))
}

fn range(word: &str) -> Option<Range> {
    Range::read(&msgpack::read(&from_hex(word)?)?)
}

fn filter(word: &str) -> Option<(bool, u64)> {
    let (flag, mask) = word.split_once(':')?;
    let flag = match flag {
        "0" => false,
        "1" => true,
        _ => return None,
    };
    Some((flag, u64::from_be_bytes(from_hex(mask)?.try_into().ok()?)))
}

fn source(word: &str) -> Option<Source> {
    let mut fields = word.split(':');
    let (manifest, path, checkpoint) = (fields.next()?, fields.next()?, fields.next()?);
    if fields.next().is_some() {
        return None;
    }
    Some(Source { manifest: from_hex(manifest)?, path: from_hex(path)?, checkpoint: id(checkpoint)? })
}
