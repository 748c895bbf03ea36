//! Fresh and the calls that read, over lent memory. The state lies in 32-bit words, the directory too, the pages in
//! bytes.
use super::{accepted, Key, Refused, Shape};

/// The words of a state: d, the four widths, b, P, L, T, the tally of depths 0 to 12, and the marks of signed
/// attributes.
pub const STATE_WORDS: usize = 23;

/// A query: attribute j is given the value `values[j]` where `given[j]` is not 0, and free otherwise.
#[repr(C)]
#[derive(Clone, Copy, Debug, PartialEq, Eq)]
pub struct HostQuery {
    /// whether each attribute is given
    pub given: [u32; 4],
    /// the value wanted of each; ignored where it is free
    pub values: [i32; 4],
}

/// Of Fresh or a load: number 0, or the number of the refusal; with number 14 the attribute.
#[repr(C)]
#[derive(Clone, Copy, Debug, PartialEq, Eq)]
pub struct MakeResult {
    /// 0, or the refusal's number
    pub number: u32,
    /// with number 14 the lowest whose width is out of bounds
    pub attribute: u32,
}

/// Number 0, the payload, the pages read and the depth of the key's leaf, or the number of the refusal and zeros; with
/// number 14 the attribute, with number 5 the depth of the leaf in which the absent key falls.
#[repr(C)]
#[derive(Clone, Copy, Debug, PartialEq, Eq)]
pub struct LookupResult {
    /// 0, or the refusal's number
    pub number: u32,
    /// with number 14 the lowest whose width is out of bounds
    pub attribute: u32,
    /// of the key's record
    pub payload: u32,
    /// pages read
    pub reads: u32,
    /// of the key's leaf
    pub depth: u32,
}

/// Of a query or a range: number 0 and how many records were written, how many match, how many pages were read, or the
/// number of the refusal and zeros; with number 14 the attribute.
#[repr(C)]
#[derive(Clone, Copy, Debug, PartialEq, Eq)]
pub struct QueryResult {
    /// 0, or the refusal's number
    pub number: u32,
    /// with number 14 the lowest whose width is out of bounds
    pub attribute: u32,
    /// records in the output
    pub written: u64,
    /// records that match
    pub total: u64,
    /// pages read
    pub reads: u64,
}

/// Number 0 and 1 for a sound store, 0 for any other, or the number of the refusal and 0; with number 14 the attribute.
#[repr(C)]
#[derive(Clone, Copy, Debug, PartialEq, Eq)]
pub struct CheckResult {
    /// 0, or the refusal's number
    pub number: u32,
    /// with number 14 the lowest whose width is out of bounds
    pub attribute: u32,
    /// 1 for a sound store
    pub sound: u32,
}

/// What an accepted query or range counts.
#[derive(Clone, Copy, Debug, PartialEq, Eq)]
pub struct Counts {
    /// records in the output
    pub written: u64,
    /// records that match
    pub total: u64,
    /// pages read
    pub reads: u64,
}

extern "C" {
    fn mdeh_fresh(
        shape: Shape,
        state: *mut u32,
        state_words: usize,
        dir: *mut u32,
        words: usize,
        pages: *mut u8,
        bytes: usize,
    ) -> MakeResult;
    fn mdeh_lookup(
        state: *const u32,
        state_words: usize,
        dir: *const u32,
        words: usize,
        pages: *const u8,
        bytes: usize,
        key: Key,
    ) -> LookupResult;
    fn mdeh_query(
        state: *const u32,
        state_words: usize,
        dir: *const u32,
        words: usize,
        pages: *const u8,
        bytes: usize,
        query: HostQuery,
        out: *mut u8,
        out_bytes: usize,
    ) -> QueryResult;
    fn mdeh_check(
        state: *const u32,
        state_words: usize,
        dir: *const u32,
        words: usize,
        pages: *const u8,
        bytes: usize,
    ) -> CheckResult;
}

impl HostQuery {
    /// The query that wants these values; the value of a free attribute is 0.
    #[inline]
    pub fn new(query: [Option<i32>; 4]) -> HostQuery {
        let given = query.map(|wanted| u32::from(wanted.is_some()));
        HostQuery { given, values: query.map(|wanted| wanted.unwrap_or(0)) }
    }
}

impl QueryResult {
    /// The counts beside number 0, otherwise the refusal.
    #[inline]
    pub fn counts(self) -> Result<Counts, Refused> {
        let QueryResult { number, attribute, written, total, reads } = self;
        accepted(number, attribute)?;
        Ok(Counts { written, total, reads })
    }
}

/// Makes a store without records, with what the library returns.
#[inline]
pub fn fresh_result(shape: Shape, state: &mut [u32], dir: &mut [u32], pages: &mut [u8]) -> MakeResult {
    // SAFETY: each pointer and length are of one slice, the slices do not overlap, and the function has no
    // `requires`.
    unsafe {
        mdeh_fresh(
            shape,
            state.as_mut_ptr(),
            state.len(),
            dir.as_mut_ptr(),
            dir.len(),
            pages.as_mut_ptr(),
            pages.len(),
        )
    }
}

/// The payload of a key's record, the pages read and the depth of its leaf, as the library returns them.
#[inline]
pub fn lookup_result(state: &[u32], dir: &[u32], pages: &[u8], key: [i32; 4]) -> LookupResult {
    // SAFETY: each pointer and length are of one slice, and the function has no `requires`.
    unsafe {
        mdeh_lookup(
            state.as_ptr(),
            state.len(),
            dir.as_ptr(),
            dir.len(),
            pages.as_ptr(),
            pages.len(),
            Key { values: key },
        )
    }
}

/// The records that match a query, written into `out`, and their counts, as the library returns them.
#[inline]
pub fn query_result(
    state: &[u32],
    dir: &[u32],
    pages: &[u8],
    query: HostQuery,
    out: &mut [u8],
) -> QueryResult {
    // SAFETY: each pointer and length are of one slice, `out` overlaps none, and the function has no
    // `requires`.
    unsafe {
        mdeh_query(
            state.as_ptr(),
            state.len(),
            dir.as_ptr(),
            dir.len(),
            pages.as_ptr(),
            pages.len(),
            query,
            out.as_mut_ptr(),
            out.len(),
        )
    }
}

/// Whether the lent store is sound, as the library returns it.
#[inline]
pub fn check_result(state: &[u32], dir: &[u32], pages: &[u8]) -> CheckResult {
    // SAFETY: each pointer and length are of one slice, and the function has no `requires`.
    unsafe { mdeh_check(state.as_ptr(), state.len(), dir.as_ptr(), dir.len(), pages.as_ptr(), pages.len()) }
}

/// Makes a store without records, or returns the refusal.
#[inline]
pub fn fresh(shape: Shape, state: &mut [u32], dir: &mut [u32], pages: &mut [u8]) -> Result<(), Refused> {
    let MakeResult { number, attribute } = fresh_result(shape, state, dir, pages);
    accepted(number, attribute)
}

/// The payload of a key's record, the pages read and the depth of its leaf, or the refusal.
#[inline]
pub fn lookup(state: &[u32], dir: &[u32], pages: &[u8], key: [i32; 4]) -> Result<(u32, u32, u32), Refused> {
    match lookup_result(state, dir, pages, key) {
        LookupResult { number: 0, payload, reads, depth, .. } => Ok((payload, reads, depth)),
        LookupResult { number, attribute, depth, .. } => Err(Refused { number, attribute, depth }),
    }
}

/// Writes the records that match a query into `out` while whole ones fit, and returns the counts or the refusal.
#[inline]
pub fn query(
    state: &[u32],
    dir: &[u32],
    pages: &[u8],
    query: [Option<i32>; 4],
    out: &mut [u8],
) -> Result<Counts, Refused> {
    query_result(state, dir, pages, HostQuery::new(query), out).counts()
}

/// Whether the lent store is sound, or the refusal.
#[inline]
pub fn check(state: &[u32], dir: &[u32], pages: &[u8]) -> Result<bool, Refused> {
    let CheckResult { number, attribute, sound } = check_result(state, dir, pages);
    accepted(number, attribute)?;
    Ok(sound != 0)
}
