//! The values that stand in a record, one after the other.

use calls::{decode, from_hex, Value};
use Value::{Array, Bin, Record};

/// The keys, prefixes, paths and ids of a call's records.
pub fn keys_of(call: &str) -> Vec<Vec<u8>> {
    let mut keys = vec![];
    for part in call.split([' ', ',', ':']) {
        if let Some(value) = from_hex(part).and_then(|bytes| decode(&bytes)) {
            collect_keys(&value, &mut keys);
        }
    }
    keys
}

pub fn collect_keys(value: &Value, keys: &mut Vec<Vec<u8>>) {
    match value {
        Bin(bytes) => keys.push(bytes.clone()),
        Array(values) | Record(values) => values.iter().for_each(|value| collect_keys(value, keys)),
        _ => {}
    }
}

/// How many values stand in it, itself counted.
pub fn count(value: &Value) -> usize {
    match value {
        Array(values) | Record(values) => 1 + values.iter().map(count).sum::<usize>(),
        _ => 1,
    }
}

/// The one of them at this place, in the order in which they are written.
pub fn nth<'a>(value: &'a mut Value, place: &mut usize) -> Option<&'a mut Value> {
    if *place == 0 {
        return Some(value);
    }
    *place -= 1;
    match value {
        Array(values) | Record(values) => values.iter_mut().find_map(|value| nth(value, place)),
        _ => None,
    }
}

/// Arrays as records, which may have further elements.
pub fn records(value: Value) -> Value {
    match value {
        Array(values) => Record(values.into_iter().map(records).collect()),
        value => value,
    }
}

#[cfg(test)]
mod tests {
    use super::*;
    use Value::{Bool, Int, Nil};

    #[test]
    fn every_value_of_a_record_is_found() {
        let value = Array(vec![Int(1), Array(vec![Nil, Bin(vec![2])]), Bool(true)]);
        let found = |place: usize| nth(&mut value.clone(), &mut { place }).cloned();
        assert_eq!(count(&value), 6);
        assert_eq!(found(0), Some(value.clone()));
        assert_eq!(found(3), Some(Nil));
        assert_eq!(found(5), Some(Bool(true)));
        assert_eq!(found(6), None);
    }
}
