//! What is timed: each operation that the port has, on one manifest, and union on several.

#[cfg(feature = "msgpack")]
use crate::msgpack;
use crate::tables::{self, Tables};
use manifest::{Insertion, Lent, Projection, Room, Selection, Source, Tree, ENCODED};
use oracle::timed::{self, Loaded};
use std::ops::Bound::{Excluded, Included};

type Work<'a> = Box<dyn FnMut() -> usize + 'a>;

/// The port's work and another's.
pub struct Both<'a> {
    pub port: Work<'a>,
    pub other: Option<Work<'a>>,
}

pub struct Case<'a> {
    pub operation: &'static str,
    /// From bytes to bytes.
    pub whole: Option<Both<'a>>,
    /// The operation alone: on tables, and on the other's records.
    pub alone: Option<Both<'a>>,
}

/// Both do the same, by what they answer.
fn both<'a>(mut port: impl FnMut() -> usize + 'a, mut other: impl FnMut() -> usize + 'a) -> Option<Both<'a>> {
    assert_eq!(port(), other(), "what is timed is the same");
    Some(Both { port: Box::new(port), other: Some(Box::new(other)) })
}

/// Three segments `a/`, `b/`, `c/` with four views each, a run among them, and a borrow: 747 bytes.
pub fn small() -> Vec<u8> {
    const HEX: &str = include_str!("small.hex");
    let digits: Vec<u32> = HEX.chars().filter_map(|letter| letter.to_digit(16)).collect();
    digits.chunks(2).map(|pair| (pair[0] * 16 + pair[1]) as u8).collect()
}

/// The segment in the middle is looked up, and those from there to before the last one are selected.
fn prefixes(manifest: &[u8]) -> (Vec<u8>, Vec<u8>) {
    let prefixes = Loaded::from(manifest).prefixes();
    (prefixes[prefixes.len() / 2].clone(), prefixes[prefixes.len() - 1].clone())
}

pub fn all(manifest: &[u8]) -> Vec<Case<'_>> {
    let mut cases = vec![read(manifest), write(manifest)];
    #[cfg(feature = "msgpack")]
    cases.extend([read_by_library(manifest), write_by_library(manifest)]);
    cases.extend([judge(manifest), lookup(manifest), insert(manifest), select(manifest)]);
    cases.extend([merge(manifest, true), merge(manifest, false)]);
    cases.push(owned(manifest));
    cases.extend(cloned(manifest));
    cases.push(project(manifest));
    cases
}

fn port_reads(manifest: &[u8]) -> impl FnMut() -> usize + '_ {
    let mut lent = Lent::new();
    move || lent.read(manifest, &Room::L1).expect("it is lawful").len()
}

fn into_tables(manifest: &[u8]) -> impl FnMut() -> usize + '_ {
    let mut tables = Tables::default();
    move || tables.read(manifest).into()
}

fn out_of_tables(manifest: &[u8]) -> impl FnMut() -> usize {
    let (tables, mut out) = (Tables::of(manifest), vec![0; ENCODED]);
    move || tables.write(&mut out)
}

/// Read, and written anew; alone, read. The port judges L1 to L5, which the original does not.
fn read(manifest: &[u8]) -> Case<'_> {
    let anew = Lent::new().read(manifest, &Room::L1).expect("it is lawful").to_vec();
    assert_eq!(anew, Loaded::from(manifest).bytes(), "what is timed is the same");
    Case {
        operation: "read",
        whole: both(port_reads(manifest), || Loaded::from(manifest).bytes().len()),
        alone: both(into_tables(manifest), || Loaded::from(manifest).lookup(&[]).into()),
    }
}

/// Written, from what was read before.
fn write(manifest: &[u8]) -> Case<'_> {
    let loaded = Loaded::from(manifest);
    Case {
        operation: "write",
        whole: None,
        alone: both(out_of_tables(manifest), move || loaded.bytes().len()),
    }
}

/// The port once more, against msgpack-c.
#[cfg(feature = "msgpack")]
fn read_by_library(manifest: &[u8]) -> Case<'_> {
    Case {
        operation: "read, against msgpack-c",
        whole: both(port_reads(manifest), || msgpack::read_and_write(manifest)),
        alone: both(into_tables(manifest), || msgpack::read(manifest)),
    }
}

#[cfg(feature = "msgpack")]
fn write_by_library(manifest: &[u8]) -> Case<'_> {
    assert_eq!(msgpack::hold(manifest), 1, "it is read");
    Case {
        operation: "write, against msgpack-c",
        whole: None,
        alone: both(out_of_tables(manifest), msgpack::write_held),
    }
}

/// L1 to L5 and no more: the empty prefix is that of the unsegmented tree, so that nothing is looked for.
fn judge(manifest: &[u8]) -> Case<'_> {
    let tables = Tables::of(manifest);
    let port = move || usize::from(tables.lookup(&[]));
    Case { operation: "judge", whole: None, alone: Some(Both { port: Box::new(port), other: None }) }
}

fn lookup(manifest: &[u8]) -> Case<'_> {
    let (mut lent, tables, loaded) = (Lent::new(), Tables::of(manifest), Loaded::from(manifest));
    let (prefix, _) = prefixes(manifest);
    let (again, one, other) = (prefix.clone(), prefix.clone(), prefix.clone());
    let port = move || {
        let tree = lent.lookup(manifest, &prefix).expect("it is lawful");
        usize::from(tree != Tree::Absent)
    };
    Case {
        operation: "lookup",
        whole: both(port, move || Loaded::from(manifest).lookup(&again).into()),
        alone: both(move || tables.lookup(&one).into(), move || loaded.lookup(&other).into()),
    }
}

/// A prefix behind all others enters, and the manifest with it is written; where the list is full, a held one is found. Alone, both lay
/// the manifest with it into a place of its own, the original by a copy of its records.
fn insert(manifest: &[u8]) -> Case<'_> {
    let (mut lent, mut tables, loaded) = (Lent::new(), Tables::of(manifest), Loaded::from(manifest));
    let (held, last) = prefixes(manifest);
    let full = loaded.prefixes().len() == 64;
    let prefix = if full { held } else { vec![last[0] + 1] };
    let (again, one, other) = (timed::prefix(&prefix), prefix.clone(), timed::prefix(&prefix));
    let port = move || match lent.insert(manifest, &prefix, &Room::L1).expect("it is lawful") {
        Insertion::Found(_) => 0,
        Insertion::Entered(_, anew) => anew.len(),
    };
    let original = move || {
        let mut loaded = Loaded::from(manifest);
        assert!(loaded.insert(&again), "it enters, or is held");
        if full {
            0
        } else {
            loaded.bytes().len()
        }
    };
    Case {
        operation: "insert",
        whole: both(port, original),
        alone: both(move || tables.insert(&one).into(), move || loaded.clone().insert(&other).into()),
    }
}

fn select(manifest: &[u8]) -> Case<'_> {
    let (mut lent, tables, loaded) = (Lent::new(), Tables::of(manifest), Loaded::from(manifest));
    let (from, to) = prefixes(manifest);
    let (again, other) = (timed::bounds(&from, &to), timed::bounds(&from, &to));
    let one = tables::range(&from, &to);
    let port = move || {
        let selection = lent.select(manifest, Included(&from), Excluded(&to)).expect("it is lawful");
        match selection {
            Selection::Unsegmented => 0,
            Selection::Window(window) => window.len(),
        }
    };
    Case {
        operation: "select",
        whole: both(port, move || Loaded::from(manifest).select(&again)),
        alone: both(move || tables.select(&one), move || loaded.select(&other)),
    }
}

/// A manifest with itself: every prefix is on both sides, and no view of L0 is absorbed but by its own watermarks.
fn merge(manifest: &[u8], from_writer: bool) -> Case<'_> {
    let (mut lent, loaded) = (Lent::new(), Loaded::from(manifest));
    let merged = move |writer: &Loaded, compactor: &Loaded| match from_writer {
        true => writer.merge_from_writer(compactor),
        false => writer.merge_from_compactor(compactor),
    };
    let mut port = move || {
        let list = match from_writer {
            true => lent.merge_from_writer(manifest, manifest, &Room::L1),
            false => lent.merge_from_compactor(manifest, manifest, &Room::L1),
        };
        list.expect("it is lawful").len()
    };
    assert_eq!(port(), merged(&loaded, &loaded).bytes().len(), "what is timed is the same");
    Case {
        operation: if from_writer { "merge from writer" } else { "merge from compactor" },
        whole: both(port, move || merged(&Loaded::from(manifest), &Loaded::from(manifest)).bytes().len()),
        alone: None,
    }
}

/// To the range that is selected above, and the result is written.
fn project(manifest: &[u8]) -> Case<'_> {
    let (mut lent, loaded) = (Lent::new(), Loaded::from(manifest));
    let (from, to) = prefixes(manifest);
    let (again, alone) = (timed::bounds(&from, &to), timed::bounds(&from, &to));
    let mut port = move || {
        let global = Some((Included(&from[..]), Excluded(&to[..])));
        let wanted = Projection { global, ..Projection::default() };
        let (_, anew) = lent.project(manifest, &wanted, &Room::L1).expect("it is lawful, and the result has room");
        anew.len()
    };
    assert_eq!(port(), loaded.project(&alone).bytes().len(), "what is timed is the same");
    Case {
        operation: "project",
        whole: both(port, move || Loaded::from(manifest).project(&again).bytes().len()),
        alone: None,
    }
}

fn owned(manifest: &[u8]) -> Case<'_> {
    let (mut lent, loaded) = (Lent::new(), Loaded::from(manifest));
    let mut port = move || lent.owned(manifest, &Room::L1).expect("it is lawful").len();
    assert_eq!(port(), loaded.owned(), "what is timed is the same");
    Case {
        operation: "owned",
        whole: both(port, move || Loaded::from(manifest).owned()),
        alone: None,
    }
}

/// The clone is written. A manifest that has no room for one borrow more has none.
fn cloned(manifest: &[u8]) -> Option<Case<'_>> {
    const PATH: &[u8] = b"parent";
    let fresh: Vec<u128> = (1..=40).collect();
    let (mut lent, again) = (Lent::new(), fresh.clone());
    let length = lent.cloned(manifest, PATH, 7, &fresh, &Room::L1).ok()?.len();
    let port = move || lent.cloned(manifest, PATH, 7, &fresh, &Room::L1).expect("it has room").len();
    let original = move || Loaded::from(manifest).cloned(PATH, 7, &again).bytes().len();
    assert_eq!(length, original(), "what is timed is the same");
    Some(Case {
        operation: "clone",
        whole: both(port, original),
        alone: None,
    })
}

/// The union is written.
pub fn union<'a>(sources: &'a [Source<'a>]) -> Case<'a> {
    let fresh: Vec<u128> = (1..=40).collect();
    let (mut lent, again) = (Lent::new(), fresh.clone());
    let original = move || {
        let loaded = sources.iter().map(|source| (Loaded::from(source.manifest), source.path, source.checkpoint));
        timed::union(loaded, &again).bytes()
    };
    let anew = lent.union(sources, &fresh, &Room::L1).expect("the union has room").to_vec();
    assert_eq!(anew, original(), "what is timed is the same");
    let port = move || lent.union(sources, &fresh, &Room::L1).expect("the union has room").len();
    Case {
        operation: "union",
        whole: both(port, move || original().len()),
        alone: None,
    }
}
