//! The steps that match the records of a page against a query.
use super::records::has_records;

/// A query for packed keys: the bits that it gives, and what they are.
#[repr(C)]
#[derive(Clone, Copy, Debug, PartialEq, Eq)]
pub struct Pattern {
    pub mask: u64,
    pub value: u64,
}

#[repr(C)]
struct HostQuery {
    given: [u32; 4],
    values: [u32; 4],
}

extern "C" {
    fn probe_pattern_of(wanted: HostQuery) -> Pattern;
    fn probe_put_matches(
        page: *const u8,
        bytes: usize,
        n: usize,
        pattern: Pattern,
        out: *mut u8,
        out_bytes: usize,
        total: usize,
    ) -> usize;
}

/// The pattern of a query, which gives each attribute a number or none; of a number its low 16 bits count.
pub fn pattern_of(query: [Option<u32>; 4]) -> Pattern {
    let wanted = HostQuery {
        given: query.map(|value| value.is_some().into()),
        values: query.map(Option::unwrap_or_default),
    };
    // SAFETY: numbers alone go in and out, and the function has no `requires`.
    unsafe { probe_pattern_of(wanted) }
}

/// Writes the records that match, of the n of a page, into the output from its record `total` on, while whole
/// ones fit. Returns how many match, with the `total` before.
#[inline]
pub fn put_matches(page: &[u8], n: usize, pattern: Pattern, out: &mut [u8], total: usize) -> Option<usize> {
    if n > 63 || !has_records(page, n) || total > 1 << 32 || total + n > 1 << 32 {
        return None;
    }
    // SAFETY: the page has n records, n is below 64 and the total stays below 2^32, as the `requires` asks; each pointer and
    // length are of one slice, and no two slices overlap.
    Some(unsafe {
        probe_put_matches(page.as_ptr(), page.len(), n, pattern, out.as_mut_ptr(), out.len(), total)
    })
}
