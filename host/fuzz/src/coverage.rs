//! Which edges of oracle and model a call went over: each has a counter, that LLVM puts there and says where it is.

use std::ptr::addr_of_mut;
use std::slice;

/// The first counter and the one past the last. All of a program stand in one row.
static mut COUNTERS: (*mut u8, *mut u8) = (std::ptr::null_mut(), std::ptr::null_mut());

/// Called once for each instrumented part, before `main` and on its thread.
///
/// # Safety
/// LLVM alone calls it.
#[no_mangle]
pub unsafe extern "C" fn __sanitizer_cov_8bit_counters_init(start: *mut u8, stop: *mut u8) {
    let row = addr_of_mut!(COUNTERS);
    if (*row).0.is_null() || start < (*row).0 {
        (*row).0 = start;
    }
    (*row).1 = stop.max((*row).1);
}

/// So many counters are passed over at once.
const ROW: usize = 32;

/// What was seen so far of each edge: one bit for each order of magnitude of how often a call went over it.
pub struct Coverage {
    seen: Vec<u8>,
}

impl Coverage {
    /// `None` if nothing is instrumented.
    pub fn new() -> Option<Coverage> {
        let count = counters().len();
        (count > 0).then(|| Coverage { seen: vec![0; count] })
    }

    #[cfg(test)]
    pub fn of_edges(count: usize) -> Coverage {
        Coverage { seen: vec![0; count] }
    }

    pub fn edges(&self) -> usize {
        self.seen.len()
    }

    pub fn reached(&self) -> usize {
        self.seen.iter().filter(|seen| **seen != 0).count()
    }

    /// What was seen of this work: the edges, each with its order of magnitude.
    pub fn of(work: impl FnOnce()) -> Vec<(u32, u8)> {
        counters().fill(0);
        work();
        let mut seen = vec![];
        for (row, counts) in counters().chunks(ROW).enumerate() {
            // Most edges are far from where a call goes.
            if counts.iter().fold(0, |all, count| all | count) != 0 {
                let counted = counts.iter().enumerate().filter(|(_, count)| **count != 0);
                seen.extend(counted.map(|(i, count)| ((row * ROW + i) as u32, 1 << magnitude(*count))));
            }
        }
        seen
    }

    /// Whether something of it was not seen before.
    pub fn adds(&mut self, seen: &[(u32, u8)]) -> bool {
        let mut new = false;
        for (edge, bit) in seen {
            let before = &mut self.seen[*edge as usize];
            new |= *before & bit == 0;
            *before |= bit;
        }
        new
    }
}

/// 1, 2, 3, 4 to 7, and so on.
fn magnitude(count: u8) -> u32 {
    match count {
        0..=3 => u32::from(count.saturating_sub(1)),
        4..=7 => 3,
        8..=15 => 4,
        16..=31 => 5,
        32..=127 => 6,
        128.. => 7,
    }
}

fn counters() -> &'static mut [u8] {
    // The row stays where it is for as long as the program runs, and has one thread that looks at it.
    unsafe {
        let (start, stop) = *addr_of_mut!(COUNTERS);
        if start.is_null() {
            return &mut [];
        }
        slice::from_raw_parts_mut(start, stop.offset_from(start) as usize)
    }
}

#[cfg(test)]
mod tests {
    use super::*;

    #[test]
    fn an_edge_is_new_once_for_each_magnitude() {
        let mut coverage = Coverage::of_edges(3);
        assert!(coverage.adds(&[(0, 1), (2, 1)]));
        assert!(!coverage.adds(&[(2, 1)]));
        assert!(!coverage.adds(&[]));
        assert!(coverage.adds(&[(2, 1 << magnitude(4))]));
        assert!(!coverage.adds(&[(2, 1 << magnitude(7)), (0, 1)]));
        assert!(coverage.adds(&[(1, 1)]));
        assert_eq!((coverage.reached(), coverage.edges()), (3, 3));
    }

    #[test]
    fn magnitudes_ascend() {
        let all: Vec<u32> = (1..=255).map(magnitude).collect();
        assert!(all.is_sorted());
        assert_eq!((all[0], all[1], all[2], all[254]), (0, 1, 2, 7));
    }
}
