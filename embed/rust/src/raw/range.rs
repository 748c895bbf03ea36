//! The range call over lent memory.
use super::{Counts, QueryResult, Refused};

/// A range: attribute j is given the interval from `low[j]` to `high[j]`, both included, where `given[j]` is not 0, and
/// is free otherwise.
#[repr(C)]
#[derive(Clone, Copy, Debug, PartialEq, Eq)]
pub struct HostRange {
    /// whether each attribute is given
    pub given: [u32; 4],
    /// the least value wanted of each; ignored where it is free
    pub low: [i32; 4],
    /// the greatest; ignored where it is free
    pub high: [i32; 4],
}

extern "C" {
    fn mdeh_range(
        state: *const u32,
        state_words: usize,
        dir: *const u32,
        words: usize,
        pages: *const u8,
        bytes: usize,
        range: HostRange,
        out: *mut u8,
        out_bytes: usize,
    ) -> QueryResult;
}

impl HostRange {
    /// The range of these intervals, each with its low and its high end; the ends of a free attribute are 0.
    #[inline]
    pub fn new(range: [Option<(i32, i32)>; 4]) -> HostRange {
        HostRange {
            given: range.map(|interval| u32::from(interval.is_some())),
            low: range.map(|interval| interval.map_or(0, |(low, _)| low)),
            high: range.map(|interval| interval.map_or(0, |(_, high)| high)),
        }
    }
}

/// The records inside a range, written into `out`, and their counts, as the library returns them.
#[inline]
pub fn range_result(
    state: &[u32],
    dir: &[u32],
    pages: &[u8],
    range: HostRange,
    out: &mut [u8],
) -> QueryResult {
    // SAFETY: each pointer and length are of one slice, `out` overlaps none, and the function has no
    // `requires`.
    unsafe {
        mdeh_range(
            state.as_ptr(),
            state.len(),
            dir.as_ptr(),
            dir.len(),
            pages.as_ptr(),
            pages.len(),
            range,
            out.as_mut_ptr(),
            out.len(),
        )
    }
}

/// Writes the records inside a range into `out` while whole ones fit, and returns the counts or the refusal.
#[inline]
pub fn range(
    state: &[u32],
    dir: &[u32],
    pages: &[u8],
    range: [Option<(i32, i32)>; 4],
    out: &mut [u8],
) -> Result<Counts, Refused> {
    range_result(state, dir, pages, HostRange::new(range), out).counts()
}
