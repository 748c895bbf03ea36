//! Files of saved stores.
use crate::record::RECORD_BYTES;

/// The bytes behind the records of a file: its shape and its trailer.
const END_BYTES: usize = 24;

/// The bytes of a file of so many records, as [`Store::save`](crate::Store::save) writes it.
///
/// ```
/// assert_eq!(mdeh::file_bytes(0), 24); // the shape and the trailer
/// assert_eq!(mdeh::file_bytes(1000), 12_024);
/// ```
#[inline]
pub const fn file_bytes(records: usize) -> usize {
    RECORD_BYTES.saturating_mul(records).saturating_add(END_BYTES)
}
