//! The steps on one page and on the lent pages.

/// The bytes of a count, and of a record.
const COUNT: usize = 2;
const RECORD: usize = 12;

#[repr(C)]
struct Content {
    payload: u32,
}

extern "C" {
    fn probe_count(page: *const u8, bytes: usize) -> usize;
    fn probe_key_at(page: *const u8, bytes: usize, i: usize) -> u64;
    fn probe_content_at(page: *const u8, bytes: usize, i: usize) -> Content;
    fn probe_insert_at(page: *mut u8, bytes: usize, i: usize, n: usize, key: u64, content: Content);
    fn probe_remove_at(page: *mut u8, bytes: usize, i: usize, n: usize);
    fn probe_carry(
        pages: *mut u8,
        bytes: usize,
        capacity: usize,
        p: usize,
        m: usize,
        n: usize,
        q: usize,
        j: usize,
    );
    fn probe_first_free(pages: *const u8, bytes: usize, capacity: usize, n: usize) -> usize;
}

/// Whether a page's bytes have a count and n records.
#[inline]
pub(super) fn has_records(page: &[u8], n: usize) -> bool {
    page.len() >= COUNT && n <= (page.len() - COUNT) / RECORD
}

/// Whether a page's bytes have a record i.
fn has_record(page: &[u8], i: usize) -> bool {
    i < usize::MAX && has_records(page, i + 1)
}

/// Whether page g is one of those lent (`PageLent`).
fn is_lent(pages: &[u8], capacity: usize, g: usize) -> bool {
    capacity <= 16 && g < 4096 && (g + 1) * (COUNT + RECORD * capacity) <= pages.len()
}

/// How many records a page has, as its count says.
pub fn count(page: &[u8]) -> Option<usize> {
    // SAFETY: the page has two bytes, as the `requires` asks; pointer and length are of one slice.
    (page.len() >= COUNT).then(|| unsafe { probe_count(page.as_ptr(), page.len()) })
}

/// The packed key of record i.
pub fn key_at(page: &[u8], i: usize) -> Option<u64> {
    // SAFETY: the page has record i, as the `requires` asks; pointer and length are of one slice.
    has_record(page, i).then(|| unsafe { probe_key_at(page.as_ptr(), page.len(), i) })
}

/// The payload of record i.
pub fn payload_at(page: &[u8], i: usize) -> Option<u32> {
    // SAFETY: the page has record i, as the `requires` asks; pointer and length are of one slice.
    has_record(page, i).then(|| unsafe { probe_content_at(page.as_ptr(), page.len(), i) }.payload)
}

/// Inserts a record at place i of a page that has n records, and room for one more.
pub fn insert_at(page: &mut [u8], i: usize, n: usize, key: u64, payload: u32) -> Option<()> {
    if i > n || !has_record(page, n) {
        return None;
    }
    // SAFETY: i is at most n and the page has a record n, as the `requires` asks; pointer and length are of
    // one slice.
    unsafe { probe_insert_at(page.as_mut_ptr(), page.len(), i, n, key, Content { payload }) };
    Some(())
}

/// Removes record i of a page that has n.
pub fn remove_at(page: &mut [u8], i: usize, n: usize) -> Option<()> {
    if i >= n || !has_records(page, n) {
        return None;
    }
    // SAFETY: i is below n and the page has n records, as the `requires` asks; pointer and length are of one
    // slice.
    unsafe { probe_remove_at(page.as_mut_ptr(), page.len(), i, n) };
    Some(())
}

/// Records carried between two of the lent pages: those from m on of page p, which has n, go behind the j
/// records of page q.
#[derive(Clone, Copy, Debug)]
pub struct Carry {
    pub p: usize,
    pub m: usize,
    pub n: usize,
    pub q: usize,
    pub j: usize,
}

/// Carries records between two pages.
pub fn carry(pages: &mut [u8], capacity: usize, carry: Carry) -> Option<()> {
    let Carry { p, m, n, q, j } = carry;
    let lent = is_lent(pages, capacity, p) && is_lent(pages, capacity, q);
    if !lent || m > n || n > capacity || j > capacity || j + (n - m) > capacity {
        return None;
    }
    // SAFETY: both pages are lent and no page gets more records than it has room for, as the `requires` asks;
    // pointer and length are of one slice.
    unsafe { probe_carry(pages.as_mut_ptr(), pages.len(), capacity, p, m, n, q, j) };
    Some(())
}

/// The first of the first n pages that is free; n where none is.
pub fn first_free(pages: &[u8], capacity: usize, n: usize) -> Option<usize> {
    if capacity > 16 || n > 4096 || n * (COUNT + RECORD * capacity) > pages.len() {
        return None;
    }
    // SAFETY: n pages are lent, as the `requires` asks; pointer and length are of one slice.
    Some(unsafe { probe_first_free(pages.as_ptr(), pages.len(), capacity, n) })
}
