//! Short inputs, exhaustively: every input of up to two bytes to `read`; and over the seven strings of
//! at most two letters of a two-letter alphabet every prefix pair, every range and every view. The
//! letters are 00 and ff, where successors and emptiness are least plain.

use crate::operations::{manifest_word, range_word};
use crate::records::{Bound, Bytes, Manifest, Range, Run, Segment, Tree, View};
use crate::value::to_hex;
use std::slice::from_ref;

pub fn short() -> impl Iterator<Item = String> {
    inputs().chain(prefixes()).chain(ranges()).chain(views()).chain(pairs())
}

const LETTERS: [u8; 2] = [0x00, 0xff];

fn strings() -> Vec<Bytes> {
    let two = LETTERS.iter().flat_map(|a| LETTERS.iter().map(|b| vec![*a, *b]));
    let mut all: Vec<Bytes> =
        std::iter::once(vec![]).chain(LETTERS.iter().map(|a| vec![*a])).chain(two).collect();
    all.sort();
    all
}

fn bounds() -> Vec<Bound> {
    let keyed = strings().into_iter().flat_map(|key| [Some((false, key.clone())), Some((true, key))]);
    std::iter::once(None).chain(keyed).collect()
}

/// Every range, empty ones too.
fn all_ranges() -> Vec<Range> {
    let ends = |start: Bound| bounds().into_iter().map(move |end| Range { start: start.clone(), end });
    bounds().into_iter().flat_map(ends).collect()
}

fn view(first: &Bytes, last: Option<&Bytes>) -> View {
    View { id: [1; 16], sst: [2; 16], first: first.clone(), last: last.cloned(), visible: None }
}

/// Every view over the strings, lawful or not, with no visible range.
fn all_views() -> Vec<View> {
    let strings = strings();
    let lasts: Vec<Option<&Bytes>> = std::iter::once(None).chain(strings.iter().map(Some)).collect();
    strings.iter().flat_map(|first| lasts.iter().map(|last| view(first, *last))).collect()
}

fn of_l0(views: Vec<View>) -> Manifest {
    Manifest { tree: Tree { l0: views, ..Tree::default() }, ..Manifest::new() }
}

fn of_segments(prefixes: &[Bytes], tree: &Tree) -> Manifest {
    let segment = |prefix: &Bytes| Segment { prefix: prefix.clone(), tree: tree.clone() };
    Manifest { segments: prefixes.iter().map(segment).collect(), ..Manifest::new() }
}

/// Every list of strings in which none begins another.
fn antichains() -> Vec<Vec<Bytes>> {
    let mut lists: Vec<Vec<Bytes>> = vec![vec![]];
    for string in strings() {
        for i in 0..lists.len() {
            if !lists[i].last().is_some_and(|last| string.starts_with(last)) {
                lists.push([lists[i].as_slice(), from_ref(&string)].concat());
            }
        }
    }
    lists
}

fn inputs() -> impl Iterator<Item = String> {
    let one = (0..=0xff).map(|a| vec![a]);
    let two = (0..=0xffffu16).map(|both| both.to_be_bytes().to_vec());
    std::iter::once(vec![]).chain(one).chain(two).map(|bytes| format!("read {}", to_hex(&bytes)))
}

/// Every prefix against every list of prefixes, and every list of two, lawful or not.
fn prefixes() -> impl Iterator<Item = String> {
    let mut calls = vec![];
    for list in antichains() {
        let manifest = manifest_word(&of_segments(&list, &Tree::default()));
        for prefix in strings() {
            calls.push(format!("insert {manifest} {}", to_hex(&prefix)));
            calls.push(format!("lookup {manifest} {}", to_hex(&prefix)));
        }
    }
    for a in strings() {
        for b in strings() {
            let data = Tree { l0: vec![view(&vec![], None)], ..Tree::default() };
            let lists = [of_segments(&[a.clone(), b.clone()], &data), of_segments(from_ref(&a), &data)];
            let [both, writer] = lists.map(|manifest| manifest_word(&manifest));
            let compacted =
                Tree { runs: vec![Run { id: 0, views: vec![view(&vec![], None)] }], ..Tree::default() };
            let compactor = manifest_word(&of_segments(from_ref(&b), &compacted));
            calls.push(format!("read {both}"));
            calls.push(format!("merge_from_writer {writer} {compactor}"));
            calls.push(format!("merge_from_compactor {writer} {compactor}"));
        }
    }
    calls.into_iter()
}

/// Every range as selection's, against every list; as a segment's own range; as a global one.
fn ranges() -> impl Iterator<Item = String> {
    let mut calls = vec![];
    let data = Tree { l0: vec![view(&vec![], None)], ..Tree::default() };
    for range in all_ranges().iter().map(range_word) {
        for list in antichains() {
            calls.push(format!("select {} {range}", manifest_word(&of_segments(&list, &Tree::default()))));
        }
        for prefix in strings() {
            let manifest = manifest_word(&of_segments(&[prefix], &data));
            calls.push(format!("project {manifest} . . .,{range}"));
            calls.push(format!("project {manifest} {range} . {range}"));
        }
    }
    calls.into_iter()
}

/// Every view: projected to every range, made visible in it, and as the first of a run.
fn views() -> impl Iterator<Item = String> {
    let mut calls = vec![];
    for range in all_ranges() {
        for view in all_views() {
            let global = range_word(&range);
            calls.push(format!("project {} {global} . .", manifest_word(&of_l0(vec![view.clone()]))));
            let next = View { first: vec![0xff], last: None, ..view.clone() };
            let tree = Tree { runs: vec![Run { id: 0, views: vec![view.clone(), next] }], ..Tree::default() };
            let run = Manifest { tree, ..Manifest::new() };
            calls.push(format!("project {} {global} . .", manifest_word(&run)));
            let seen = View { visible: Some(range.clone()), ..view };
            calls.push(format!("read {}", manifest_word(&of_l0(vec![seen]))));
        }
    }
    calls.into_iter()
}

/// Every pair of views as the sources of a union, without an extractor and with one.
fn pairs() -> impl Iterator<Item = String> {
    let mut calls = vec![];
    let fresh = [[7; 16], [8; 16], [9; 16]].map(|id| to_hex(&id)).join(",");
    let word = |manifest: &Manifest, path: u8| {
        format!("{}:{}:{}", manifest_word(manifest), to_hex(&[path]), to_hex(&[path; 16]))
    };
    for a in all_views() {
        for b in all_views() {
            let sources = [of_l0(vec![a.clone()]), of_l0(vec![b.clone()])];
            calls.push(format!("union {fresh} {} {}", word(&sources[0], 1), word(&sources[1], 2)));
            let named = |view: &View| {
                let tree = Tree { l0: vec![view.clone()], ..Tree::default() };
                Manifest { extractor: Some(vec![]), ..of_segments(&[vec![]], &tree) }
            };
            calls.push(format!("union {fresh} {} {}", word(&named(&a), 1), word(&named(&b), 2)));
        }
    }
    calls.into_iter()
}
