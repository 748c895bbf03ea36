//! Records as they lie in an output and in a page.
use crate::key::Key;
use crate::shape::Shape;
use core::iter::FusedIterator;
use core::slice::Iter;

/// The bytes of a record: four 16-bit values, in two's complement where signed, and a 32-bit payload, little-endian.
pub const RECORD_BYTES: usize = 12;

/// A record: its key's values, 0 for an unused attribute, and its payload.
#[derive(Clone, Copy, Debug, PartialEq, Eq, Hash)]
pub struct Record {
    /// the key's values, attribute 0 first
    pub values: [i32; 4],
    /// what the host stored with them
    pub payload: u32,
}

impl Record {
    /// The record of these bytes, in a store of this shape. A field is a number of 16 bits with a sign where the shape
    /// marks its attribute, and without one elsewhere.
    ///
    /// ```
    /// use mdeh::{Record, Shape};
    ///
    /// let shape = Shape::new(&[6, 10], 16);
    /// let bytes = [2, 0, 0xff, 0xff, 0, 0, 0, 0, 13, 0, 0, 0];
    /// assert_eq!(Record::from_bytes(shape.signed(1), bytes), Record { values: [2, -1, 0, 0], payload: 13 });
    /// assert_eq!(Record::from_bytes(shape, bytes), Record { values: [2, 65535, 0, 0], payload: 13 });
    /// ```
    #[inline]
    pub const fn from_bytes(shape: Shape, bytes: [u8; RECORD_BYTES]) -> Record {
        let [a, b, c, d, e, f, g, h, payload @ ..] = bytes;
        Record {
            values: [
                value(shape.is_signed(0), [a, b]),
                value(shape.is_signed(1), [c, d]),
                value(shape.is_signed(2), [e, f]),
                value(shape.is_signed(3), [g, h]),
            ],
            payload: u32::from_le_bytes(payload),
        }
    }

    /// The record's key.
    #[inline]
    pub const fn key(&self) -> Key {
        Key { values: self.values }
    }
}

/// The value in a field.
#[inline]
const fn value(signed: bool, field: [u8; 2]) -> i32 {
    if signed {
        i16::from_le_bytes(field) as i32
    } else {
        u16::from_le_bytes(field) as i32
    }
}

/// The records in some bytes, one after the other.
#[derive(Clone, Debug)]
pub struct Records<'a> {
    shape: Shape,
    places: Iter<'a, [u8; RECORD_BYTES]>,
}

impl<'a> Records<'a> {
    /// The whole records in these bytes of a store of this shape, up to so many.
    #[inline]
    pub fn new(shape: Shape, bytes: &'a [u8], most: usize) -> Records<'a> {
        let (places, _) = bytes.as_chunks();
        Records { shape, places: places[..most.min(places.len())].iter() }
    }
}

impl Iterator for Records<'_> {
    type Item = Record;

    #[inline]
    fn next(&mut self) -> Option<Record> {
        self.places.next().map(|&bytes| Record::from_bytes(self.shape, bytes))
    }

    #[inline]
    fn size_hint(&self) -> (usize, Option<usize>) {
        self.places.size_hint()
    }
}

impl DoubleEndedIterator for Records<'_> {
    #[inline]
    fn next_back(&mut self) -> Option<Record> {
        self.places.next_back().map(|&bytes| Record::from_bytes(self.shape, bytes))
    }
}

impl ExactSizeIterator for Records<'_> {}

impl FusedIterator for Records<'_> {}
