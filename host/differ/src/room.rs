//! What a lent room makes of an answer that was given without one: refusal 4 if the result fills more
//! than is lent, and else the same answer. So the oracle, which has no room, can be held against it.

use crate::judge::operation;
use calls::{decode, from_hex, Value};

/// Segments, views, runs, borrows, borrowed ids, bytes.
pub type Room = [u64; 6];

pub fn split(call: &str) -> Option<(Room, &str)> {
    let (numbers, bare) = call.strip_prefix("room=")?.split_once(' ')?;
    let numbers: Option<Vec<u64>> = numbers.split(',').map(|number| number.parse().ok()).collect();
    Some((numbers?.try_into().ok()?, bare))
}

pub fn expected(room: &Room, bare: &str, answer: &str) -> String {
    let filled = filled(operation(bare), answer);
    let fits = filled.iter().zip(room).all(|(filled, lent)| filled <= lent);
    if fits {
        answer.to_string()
    } else {
        "refused 4 at 0".to_string()
    }
}

/// What the result fills of each table. Lookup, selection and a prefix that was found fill nothing.
pub fn filled(operation: &str, answer: &str) -> Room {
    let words: Vec<&str> = answer.split(' ').collect();
    let mut room = [0; 6];
    match (operation, words.as_slice()) {
        ("owned", ["ok", "."]) => {}
        ("owned", ["ok", ids]) => room[4] = ids.split(',').count() as u64,
        ("merge_from_writer" | "merge_from_compactor", ["ok", segments]) => {
            count_segments(&mut room, &read(segments));
        }
        ("read" | "clone" | "union", ["ok", manifest])
        | ("project", ["ok", _, manifest])
        | ("insert", ["ok", "entered", _, manifest]) => count_manifest(&mut room, &read(manifest)),
        _ => {}
    }
    room
}

fn read(word: &str) -> Value {
    from_hex(word).and_then(|bytes| decode(&bytes)).unwrap_or(Value::Nil)
}

fn elements(value: &Value) -> &[Value] {
    match value {
        Value::Array(values) => values,
        _ => &[],
    }
}

fn count_bytes(room: &mut Room, value: &Value) {
    match value {
        Value::Bin(bytes) => room[5] += bytes.len() as u64,
        Value::Array(values) => values.iter().for_each(|value| count_bytes(room, value)),
        _ => {}
    }
}

fn count_views(room: &mut Room, views: &Value) {
    for view in elements(views) {
        room[1] += 1;
        // First key, last key, visible range; the two ids before them are in no pool.
        elements(view)[2..].iter().for_each(|part| count_bytes(room, part));
    }
}

fn count_tree(room: &mut Room, tree: &Value) {
    let [_, _, l0, runs] = elements(tree) else { return };
    count_views(room, l0);
    for run in elements(runs) {
        room[2] += 1;
        count_views(room, &elements(run)[1]);
    }
}

fn count_segments(room: &mut Room, segments: &Value) {
    for segment in elements(segments) {
        room[0] += 1;
        count_bytes(room, &elements(segment)[0]);
        count_tree(room, &elements(segment)[1]);
    }
}

fn count_manifest(room: &mut Room, manifest: &Value) {
    let [_, tree, segments, name, _, _, _, _, _, borrows, ..] = elements(manifest) else { return };
    count_tree(room, tree);
    count_segments(room, segments);
    count_bytes(room, name);
    for borrow in elements(borrows) {
        room[3] += 1;
        count_bytes(room, &elements(borrow)[0]);
        room[4] += elements(&elements(borrow)[3]).len() as u64;
    }
}
