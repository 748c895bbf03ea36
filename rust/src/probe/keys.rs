//! The steps on packed keys: split order, and places in a page.
use super::records::has_records;
use super::{RawWidths, Widths};
use std::cmp::Ordering;

#[repr(C)]
struct PlaceFields {
    found: u64,
    place: usize,
}

extern "C" {
    fn probe_first_step(widths: RawWidths, x: u64, y: u64) -> u64;
    fn probe_compare(widths: RawWidths, x: u64, y: u64) -> u32;
    fn probe_find(page: *const u8, bytes: usize, n: usize, widths: RawWidths, key: u64) -> PlaceFields;
    fn probe_first_one(page: *const u8, bytes: usize, n: usize, widths: RawWidths, g: u64) -> usize;
}

/// The number of the first split step in which two keys differ; W where they do not.
pub fn first_step(widths: &Widths, x: u64, y: u64) -> u64 {
    // SAFETY: the widths fit, as the `requires` asks; numbers alone go in and out.
    unsafe { probe_first_step(widths.raw, x, y) }
}

/// How x stands to y: equal, less for before, greater for after.
pub fn compare(widths: &Widths, x: u64, y: u64) -> Ordering {
    // SAFETY: the widths fit, as the `requires` asks; numbers alone go in and out.
    match unsafe { probe_compare(widths.raw, x, y) } {
        0 => Ordering::Equal,
        1 => Ordering::Less,
        2 => Ordering::Greater,
        number => panic!("no order has the number {number}"),
    }
}

/// The place of a key among the n records of a page: `Ok` of the record that has it, or `Err` of the place
/// where it would stand.
#[inline]
pub fn find(page: &[u8], n: usize, widths: &Widths, key: u64) -> Option<Result<usize, usize>> {
    if !has_records(page, n) {
        return None;
    }
    // SAFETY: the page has n records and the widths fit, as the `requires` asks; pointer and length are of one
    // slice.
    match unsafe { probe_find(page.as_ptr(), page.len(), n, widths.raw, key) } {
        PlaceFields { found: 0, place } => Some(Err(place)),
        PlaceFields { found: 1, place } => Some(Ok(place)),
        PlaceFields { found, .. } => panic!("no place has the number {found}"),
    }
}

/// The place of the first of the n records of a page whose bit at the place g of a split step is 1; n where
/// none has it.
pub fn first_one(page: &[u8], n: usize, widths: &Widths, g: u64) -> Option<usize> {
    if !has_records(page, n) || !widths.has_step(g) {
        return None;
    }
    // SAFETY: the page has n records, the widths fit and g is the place of a split step, as the `requires`
    // asks; pointer and length are of one slice.
    Some(unsafe { probe_first_one(page.as_ptr(), page.len(), n, widths.raw, g) })
}
