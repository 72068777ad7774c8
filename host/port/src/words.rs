//! Words of the line protocol: `None` for one that has not its form.

/// What a result may fill: segments, views, runs, borrows, borrowed ids, bytes.
pub type Room = [u64; 6];

/// The numbers of L1.
const L1: Room = [64, 512, 128, 32, 512, 8_192];

const DIGITS: &[u8; 16] = b"0123456789abcdef";

/// What each letter counts; 16 if it is no digit.
const COUNTS: [u8; 256] = {
    let mut counts = [16; 256];
    let mut digit = 0;
    while digit < 16 {
        counts[DIGITS[digit] as usize] = digit as u8;
        digit += 1;
    }
    counts
};

pub fn bytes(word: &str) -> Option<Vec<u8>> {
    if word == "-" {
        return Some(vec![]);
    }
    if word.is_empty() || word.len() % 2 == 1 {
        return None;
    }
    // Most calls are long words of hex, so it is asked once whether all of it was.
    let mut wrong = 0;
    let both = |pair: &[u8]| {
        let (high, low) = (COUNTS[usize::from(pair[0])], COUNTS[usize::from(pair[1])]);
        wrong |= high | low;
        high << 4 | low
    };
    let bytes = word.as_bytes().chunks_exact(2).map(both).collect();
    (wrong < 16).then_some(bytes)
}

pub fn hex(bytes: &[u8]) -> String {
    if bytes.is_empty() {
        return "-".to_string();
    }
    let digits =
        bytes.iter().flat_map(|byte| [DIGITS[usize::from(byte / 16)], DIGITS[usize::from(byte % 16)]]);
    String::from_utf8(digits.collect()).expect("digits are text")
}

/// An id's two words, the high one first.
pub fn id(word: &str) -> Option<[u64; 2]> {
    let bytes: [u8; 16] = bytes(word)?.try_into().ok()?;
    let id = u128::from_be_bytes(bytes);
    Some([(id >> 64) as u64, id as u64])
}

/// The words of a list of ids.
pub fn ids(word: &str) -> Option<Vec<u64>> {
    if word == "." {
        return Some(vec![]);
    }
    Some(word.split(',').map(id).collect::<Option<Vec<_>>>()?.concat())
}

/// A list of ids by their words.
pub fn list(words: &[u64]) -> String {
    if words.is_empty() {
        return ".".to_string();
    }
    let ids: Vec<String> = words.chunks_exact(2).map(|id| format!("{:016x}{:016x}", id[0], id[1])).collect();
    ids.join(",")
}

fn number(word: &str) -> Option<u64> {
    let plain = !word.is_empty() && word.bytes().all(|letter| letter.is_ascii_digit());
    word.parse().ok().filter(|_| plain)
}

/// A call's room, that of L1 if it names none, and the rest of the line.
pub fn room(line: &str) -> Option<(Room, &str)> {
    let Some(rest) = line.strip_prefix("room=") else {
        return Some((L1, line));
    };
    let (list, call) = rest.split_once(' ')?;
    let numbers = list.split(',').map(number).collect::<Option<Vec<u64>>>()?;
    Some((numbers.try_into().ok()?, call))
}

/// A filter's flag and mask, if there is one.
pub fn filter(word: &str) -> Option<Option<(u64, u64)>> {
    if word == "." {
        return Some(None);
    }
    let (flag, mask) = word.split_once(':')?;
    let flag = match flag {
        "0" => 0,
        "1" => 1,
        _ => return None,
    };
    let mask: [u8; 8] = bytes(mask)?.try_into().ok()?;
    Some(Some((flag, u64::from_be_bytes(mask))))
}
