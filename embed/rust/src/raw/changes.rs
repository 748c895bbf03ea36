//! The calls that change a store over lent memory: insert and delete.
use super::{Key, Refused};

/// Of an insert or a delete: number 0 and the depth of the key's leaf afterwards, or the number of the refusal and
/// zeros; with number 14 the attribute, with number 5 the depth of the leaf in which the absent key falls.
#[repr(C)]
#[derive(Clone, Copy, Debug, PartialEq, Eq)]
pub struct ChangeResult {
    /// 0, or the refusal's number
    pub number: u32,
    /// with number 14 the lowest whose width is out of bounds
    pub attribute: u32,
    /// of the key's leaf
    pub depth: u32,
}

extern "C" {
    fn mdeh_insert(
        state: *mut u32,
        state_words: usize,
        dir: *mut u32,
        words: usize,
        pages: *mut u8,
        bytes: usize,
        key: Key,
        payload: u32,
    ) -> ChangeResult;
    fn mdeh_delete(
        state: *mut u32,
        state_words: usize,
        dir: *mut u32,
        words: usize,
        pages: *mut u8,
        bytes: usize,
        key: Key,
    ) -> ChangeResult;
}

/// Adds a record, with what the library returns.
#[inline]
pub fn insert_result(
    state: &mut [u32],
    dir: &mut [u32],
    pages: &mut [u8],
    key: [i32; 4],
    payload: u32,
) -> ChangeResult {
    // SAFETY: each pointer and length are of one slice, the slices do not overlap, and the function has no
    // `requires`.
    unsafe {
        mdeh_insert(
            state.as_mut_ptr(),
            state.len(),
            dir.as_mut_ptr(),
            dir.len(),
            pages.as_mut_ptr(),
            pages.len(),
            Key { values: key },
            payload,
        )
    }
}

/// Removes the record of a key, with what the library returns.
#[inline]
pub fn delete_result(state: &mut [u32], dir: &mut [u32], pages: &mut [u8], key: [i32; 4]) -> ChangeResult {
    // SAFETY: each pointer and length are of one slice, the slices do not overlap, and the function has no
    // `requires`.
    unsafe {
        mdeh_delete(
            state.as_mut_ptr(),
            state.len(),
            dir.as_mut_ptr(),
            dir.len(),
            pages.as_mut_ptr(),
            pages.len(),
            Key { values: key },
        )
    }
}

/// Adds a record, and returns the depth of its leaf then, or the refusal.
#[inline]
pub fn insert(
    state: &mut [u32],
    dir: &mut [u32],
    pages: &mut [u8],
    key: [i32; 4],
    payload: u32,
) -> Result<u32, Refused> {
    changed(insert_result(state, dir, pages, key, payload))
}

/// Removes the record of a key, and returns the depth of the leaf in which the key falls then, or the refusal.
#[inline]
pub fn delete(state: &mut [u32], dir: &mut [u32], pages: &mut [u8], key: [i32; 4]) -> Result<u32, Refused> {
    changed(delete_result(state, dir, pages, key))
}

/// The depth beside number 0, otherwise the refusal.
#[inline]
fn changed(result: ChangeResult) -> Result<u32, Refused> {
    match result {
        ChangeResult { number: 0, depth, .. } => Ok(depth),
        ChangeResult { number, attribute, depth } => Err(Refused { number, attribute, depth }),
    }
}
