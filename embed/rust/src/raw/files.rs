//! Save and load over lent memory: a store's records as the bytes of a file, and a store made of them.
use super::{accepted, MakeResult, Refused};

/// Number 0 and the bytes of the file, or the number of the refusal and 0; with number 14 the attribute.
#[repr(C)]
#[derive(Clone, Copy, Debug, PartialEq, Eq)]
pub struct SaveResult {
    /// 0, or the refusal's number
    pub number: u32,
    /// with number 14 the lowest whose width is out of bounds
    pub attribute: u32,
    /// bytes of the file
    pub size: u64,
}

extern "C" {
    fn mdeh_save(
        state: *const u32,
        state_words: usize,
        dir: *const u32,
        words: usize,
        pages: *const u8,
        bytes: usize,
        out: *mut u8,
        out_bytes: usize,
    ) -> SaveResult;
    fn mdeh_load(
        file: *const u8,
        file_bytes: usize,
        state: *mut u32,
        state_words: usize,
        dir: *mut u32,
        words: usize,
        pages: *mut u8,
        bytes: usize,
    ) -> MakeResult;
}

/// The file of a store's records, written into `out`, and its bytes, as the library returns them.
#[inline]
pub fn save_result(state: &[u32], dir: &[u32], pages: &[u8], out: &mut [u8]) -> SaveResult {
    // SAFETY: each pointer and length are of one slice, `out` overlaps none, and the function has no
    // `requires`.
    unsafe {
        mdeh_save(
            state.as_ptr(),
            state.len(),
            dir.as_ptr(),
            dir.len(),
            pages.as_ptr(),
            pages.len(),
            out.as_mut_ptr(),
            out.len(),
        )
    }
}

/// Makes a store of a file's shape and records, with what the library returns.
#[inline]
pub fn load_result(file: &[u8], state: &mut [u32], dir: &mut [u32], pages: &mut [u8]) -> MakeResult {
    // SAFETY: each pointer and length are of one slice, the slices do not overlap, and the function has no
    // `requires`.
    unsafe {
        mdeh_load(
            file.as_ptr(),
            file.len(),
            state.as_mut_ptr(),
            state.len(),
            dir.as_mut_ptr(),
            dir.len(),
            pages.as_mut_ptr(),
            pages.len(),
        )
    }
}

/// Writes the file of a store's records into `out`, and returns how many bytes it has, or the refusal.
#[inline]
pub fn save(state: &[u32], dir: &[u32], pages: &[u8], out: &mut [u8]) -> Result<u64, Refused> {
    let SaveResult { number, attribute, size } = save_result(state, dir, pages, out);
    accepted(number, attribute)?;
    Ok(size)
}

/// Makes a store of a file's shape and records, or returns the refusal.
#[inline]
pub fn load(file: &[u8], state: &mut [u32], dir: &mut [u32], pages: &mut [u8]) -> Result<(), Refused> {
    let MakeResult { number, attribute } = load_result(file, state, dir, pages);
    accepted(number, attribute)
}
