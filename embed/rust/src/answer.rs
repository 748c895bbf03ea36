//! What accepted calls tell.
use crate::raw::{Counts, QueryResult};
use crate::record::{Record, Records};
use crate::refusal::Refusal;
use crate::shape::Shape;

/// What an insert tells of the record that is stored now.
#[derive(Clone, Copy, Debug, PartialEq, Eq)]
pub struct Inserted {
    /// how deep it lies: the depth of its leaf, once leaves are divided
    pub depth: u32,
}

/// What a delete tells of the key that is not stored any more.
#[derive(Clone, Copy, Debug, PartialEq, Eq)]
pub struct Deleted {
    /// the depth of the leaf in which it falls, once leaves are joined
    pub depth: u32,
}

/// What a lookup finds.
#[derive(Clone, Copy, Debug, PartialEq, Eq)]
pub struct Found {
    /// the payload of the key's record; 0 only of one that an earlier version stored
    pub payload: u32,
    /// how many pages were read: 1
    pub reads: u32,
    /// how deep the record lies: the depth of its leaf
    pub depth: u32,
}

/// What a query or a range finds: its counts, and the records that fit the output, which it iterates over.
///
/// ```
/// use mdeh::{Query, Shape, Store, RECORD_BYTES, STATE_WORDS};
///
/// let mut store = Store::fresh(Shape::new(&[2, 2], 2), [0; STATE_WORDS], [0; 8], [0; 60])?;
/// store.insert([2, 1], 13)?;
/// store.insert([3, 1], 12)?;
///
/// let mut out = [0; RECORD_BYTES]; // room for one record
/// let listing = store.query(Query::all(), &mut out)?;
/// for record in &listing {
///     assert_eq!((record.values, record.payload), ([2, 1, 0, 0], 13));
/// }
/// assert!(!listing.is_complete());
///
/// let mut out = vec![0; listing.total as usize * RECORD_BYTES];
/// let listing = store.query(Query::all(), &mut out)?;
/// assert!(listing.is_complete());
/// assert_eq!(listing.into_iter().map(|record| record.payload).max(), Some(13));
/// # Ok::<(), mdeh::Refusal>(())
/// ```
#[derive(Clone, Copy, Debug)]
pub struct Listing<'o> {
    /// how many records were written into the output
    pub written: u64,
    /// how many records match; more than written where the output was short
    pub total: u64,
    /// how many pages were read
    pub reads: u64,
    shape: Shape,
    out: &'o [u8],
}

impl<'o> Listing<'o> {
    /// What the library returned of an output of a store of this shape.
    #[inline]
    pub(crate) fn of(result: QueryResult, shape: Shape, out: &'o [u8]) -> Result<Listing<'o>, Refusal> {
        let Counts { written, total, reads } = result.counts().map_err(Refusal::of)?;
        Ok(Listing { written, total, reads, shape, out })
    }

    /// The records that were written, in split order.
    #[inline]
    pub fn records(&self) -> Records<'o> {
        Records::new(self.shape, self.out, self.written as usize)
    }

    /// Whether the output had room for every record that matches.
    #[inline]
    #[must_use]
    pub fn is_complete(&self) -> bool {
        self.written == self.total
    }
}

impl<'o> IntoIterator for Listing<'o> {
    type Item = Record;
    type IntoIter = Records<'o>;

    #[inline]
    fn into_iter(self) -> Records<'o> {
        self.records()
    }
}

impl<'o> IntoIterator for &Listing<'o> {
    type Item = Record;
    type IntoIter = Records<'o>;

    #[inline]
    fn into_iter(self) -> Records<'o> {
        self.records()
    }
}
