//! A RANGE word: document 01's `[start, end]` in MessagePack. The port's entry points take a range as
//! bounds over lent bytes, and those are the word's own bytes here.

/// Kind, place and length of the start's key, and of the end's: 0 unbounded, 1 included, 2 excluded.
pub type Range = [u64; 6];

/// Bytes that are read one value after the other.
struct Reader<'a> {
    bytes: &'a [u8],
    at: usize,
}

const DEEPEST: usize = 16;

pub fn range(bytes: &[u8]) -> Option<Range> {
    // First whether they are one value, then what it is.
    let mut whole = Reader { bytes, at: 0 };
    whole.skip(0)?;
    if whole.at != bytes.len() {
        return None;
    }
    let mut reader = Reader { bytes, at: 0 };
    if reader.array()? < 2 {
        return None;
    }
    let (start, end) = (reader.bound()?, reader.bound()?);
    [start, end].concat().try_into().ok()
}

impl Reader<'_> {
    fn take(&mut self, count: usize) -> Option<&[u8]> {
        let taken = self.bytes[self.at..].get(..count)?;
        self.at += count;
        Some(taken)
    }

    fn number(&mut self, width: usize) -> Option<u64> {
        Some(self.take(width)?.iter().fold(0, |number, byte| number << 8 | u64::from(*byte)))
    }

    fn length(&mut self, width: usize) -> Option<usize> {
        usize::try_from(self.number(width)?).ok()
    }

    /// Passes over the value that stands here, inside so many arrays and maps.
    fn skip(&mut self, depth: usize) -> Option<()> {
        let first = self.number(1)? as u8;
        let (fixed, elements) = match first {
            0x00..=0x7f | 0xe0..=0xff | 0xc0 | 0xc2 | 0xc3 => (0, None),
            0xc1 => return None,
            0x80..=0x8f => (0, Some(2 * usize::from(first & 15))),
            0x90..=0x9f => (0, Some(usize::from(first & 15))),
            0xa0..=0xbf => (usize::from(first & 31), None),
            0xc4 | 0xd9 => (self.length(1)?, None),
            0xc5 | 0xda => (self.length(2)?, None),
            0xc6 | 0xdb => (self.length(4)?, None),
            0xc7 => (self.length(1)? + 1, None),
            0xc8 => (self.length(2)? + 1, None),
            0xc9 => (self.length(4)? + 1, None),
            0xcc | 0xd0 => (1, None),
            // d4 is an ext: its type, and one byte.
            0xcd | 0xd1 | 0xd4 => (2, None),
            0xca | 0xce | 0xd2 => (4, None),
            0xcb | 0xcf | 0xd3 => (8, None),
            0xd5 => (3, None),
            0xd6 => (5, None),
            0xd7 => (9, None),
            0xd8 => (17, None),
            0xdc => (0, Some(self.length(2)?)),
            0xdd => (0, Some(self.length(4)?)),
            0xde => (0, Some(2 * self.length(2)?)),
            0xdf => (0, Some(2 * self.length(4)?)),
        };
        self.take(fixed)?;
        if let Some(count) = elements {
            if depth == DEEPEST {
                return None;
            }
            for _ in 0..count {
                self.skip(depth + 1)?;
            }
        }
        Some(())
    }

    /// The count of an array's elements.
    fn array(&mut self) -> Option<usize> {
        match self.number(1)? as u8 {
            first @ 0x90..=0x9f => Some(usize::from(first & 15)),
            0xdc => self.length(2),
            0xdd => self.length(4),
            _ => None,
        }
    }

    /// Its kind, and where its key stands.
    fn bound(&mut self) -> Option<[u64; 3]> {
        if self.bytes.get(self.at) == Some(&0xc0) {
            self.at += 1;
            return Some([0, 0, 0]);
        }
        let count = self.array()?;
        if count < 2 {
            return None;
        }
        let kind = match self.unsigned()? {
            0 => 1,
            1 => 2,
            _ => return None,
        };
        let length = match self.number(1)? {
            0xc4 => self.length(1)?,
            0xc5 => self.length(2)?,
            0xc6 => self.length(4)?,
            _ => return None,
        };
        let place = self.at;
        self.take(length)?;
        for _ in 2..count {
            self.skip(0)?;
        }
        Some([kind, place as u64, length as u64])
    }

    /// An integer of any width that is not negative.
    fn unsigned(&mut self) -> Option<u64> {
        let first = self.number(1)? as u8;
        match first {
            0x00..=0x7f => Some(first.into()),
            0xcc..=0xcf => self.number(1 << (first - 0xcc)),
            0xd0..=0xd3 => {
                let width = 1 << (first - 0xd0);
                // A negative one has its highest bit set.
                self.number(width).filter(|number| number >> (8 * width - 1) == 0)
            }
            _ => None,
        }
    }
}
