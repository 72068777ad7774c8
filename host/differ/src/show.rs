//! A call in words that can be read, for reports.

use calls::{decode, from_hex, Value};

pub fn show(call: &str) -> String {
    call.split(' ').map(word).collect::<Vec<_>>().join(" | ")
}

/// An answer's words, its manifest or segments made readable too.
pub fn show_answer(answer: &str) -> String {
    match answer.split_once(' ') {
        Some(("ok", rest)) => format!("ok {}", rest.split(' ').map(word).collect::<Vec<_>>().join(" ")),
        _ => answer.to_string(),
    }
}

fn word(word: &str) -> String {
    for mark in [",", ":"] {
        if word.contains(mark) {
            return word.split(mark).map(self::word).collect::<Vec<_>>().join(&format!(" {mark} "));
        }
    }
    let value = from_hex(word).filter(|bytes| bytes.len() != 16).and_then(|bytes| decode(&bytes));
    value
        .and_then(|value| manifest(&value).or_else(|| range(&value)).or_else(|| segments(&value)))
        .unwrap_or(word.to_string())
}

fn elements(value: &Value) -> Option<&[Value]> {
    match value {
        Value::Array(values) => Some(values),
        _ => None,
    }
}

fn bytes(value: &Value) -> Option<String> {
    let Value::Bin(bytes) = value else { return None };
    let plain = bytes.iter().all(|byte| byte.is_ascii_graphic());
    if plain {
        return Some(format!("'{}'", String::from_utf8_lossy(bytes)));
    }
    Some(bytes.iter().map(|byte| format!("{byte:02x}")).collect::<Vec<_>>().join(" "))
}

/// An id by its last byte, with the bytes before it if they are not 0.
fn id(value: &Value) -> Option<String> {
    let Value::Bin(bytes) = value else { return Some(".".to_string()) };
    Some(format!("#{:x}", bytes.iter().fold(0u128, |sum, byte| sum << 8 | u128::from(*byte))))
}

fn range(value: &Value) -> Option<String> {
    let [start, end] = elements(value)? else { return None };
    let bound = |value: &Value| match elements(value) {
        None if *value == Value::Nil => Some((true, "inf".to_string())),
        Some([Value::Int(kind), key]) => Some((*kind == 1, bytes(key)?)),
        _ => None,
    };
    let ((open, from), (closed, to)) = (bound(start)?, bound(end)?);
    let from = if from == "inf" { "-inf".to_string() } else { from };
    Some(format!("{}{from}, {to}{}", if open { "(" } else { "[" }, if closed { ")" } else { "]" }))
}

fn view(value: &Value) -> Option<String> {
    let [own, sst, first, last, visible] = elements(value)? else { return None };
    let last = bytes(last).unwrap_or("?".to_string());
    let seen = range(visible).map_or(String::new(), |range| format!(" visible {range}"));
    Some(format!("view {}/{} {}..{last}{seen}", id(own)?, id(sst)?, bytes(first)?))
}

fn views(value: &Value) -> Option<String> {
    Some(elements(value)?.iter().map(view).collect::<Option<Vec<_>>>()?.join(", "))
}

fn tree(value: &Value) -> Option<String> {
    let [view_mark, sst_mark, l0, runs] = elements(value)? else { return None };
    let mut parts = vec![];
    if (view_mark, sst_mark) != (&Value::Nil, &Value::Nil) {
        parts.push(format!("watermarks {}/{}", id(view_mark)?, id(sst_mark)?));
    }
    if !elements(l0)?.is_empty() {
        parts.push(format!("L0 {}", views(l0)?));
    }
    for run in elements(runs)? {
        let [Value::Int(number), inside] = elements(run)? else { return None };
        parts.push(format!("run {number} [{}]", views(inside)?));
    }
    Some(format!("{{{}}}", parts.join("; ")))
}

fn segments(value: &Value) -> Option<String> {
    let segment = |value: &Value| {
        let [prefix, inside] = elements(value)? else { return None };
        Some(format!("segment {} {}", bytes(prefix)?, tree(inside)?))
    };
    Some(format!("<{}>", elements(value)?.iter().map(segment).collect::<Option<Vec<_>>>()?.join(" ")))
}

/// The scalars are left out but for the name: no difference hangs on them without showing elsewhere.
fn manifest(value: &Value) -> Option<String> {
    let [_, unsegmented, named, name, _, _, _, _, _, borrows, _, _] = elements(value)? else { return None };
    let mut text = format!("manifest {}", tree(unsegmented)?);
    if !elements(named)?.is_empty() {
        text += &format!(" {}", segments(named)?);
    }
    if *name != Value::Nil {
        text += &format!(" name {}", bytes(name)?);
    }
    for borrow in elements(borrows)? {
        let [path, source, last, ids] = elements(borrow)? else { return None };
        let ids = elements(ids)?.iter().map(id).collect::<Option<Vec<_>>>()?.join(",");
        text += &format!(" borrow {} {}->{} [{ids}]", bytes(path)?, id(source)?, id(last)?);
    }
    Some(text)
}
