//! How much memory a store needs, and values that divide well.
use crate::shape::Shape;
use crate::store::{MOST_RECORDS, MOST_WORDS};

/// The greatest depth of a leaf.
const DEEPEST: u32 = MOST_WORDS.ilog2();

/// The greatest width of an attribute.
const WIDEST: u32 = 16;

/// The memory that [`Shape::room`] recommends.
#[derive(Clone, Copy, Debug, PartialEq, Eq)]
pub struct Room {
    /// of the directory
    pub words: usize,
    /// of the pages
    pub bytes: usize,
    /// whether the records find room in them, if their keys are drawn at random
    pub holds: bool,
}

impl Shape {
    /// The directory words and page bytes for so many records of this shape.
    ///
    /// Where `holds` is true, keys that are drawn at random find room: an insert is refused with
    /// [`Refusal::Depth`](crate::Refusal::Depth) in less than one fill of a thousand. The pages take the records half
    /// full, and eight more: random keys use n / (0.68 b) on the average, keys of an even grid up to 2n / b. With as many
    /// pages as words [`Refusal::Pages`](crate::Refusal::Pages) never comes, whatever the keys.
    ///
    /// Otherwise the words are the most that the shape has use for, and it is to be tried whether the records find room;
    /// where they are more than there are keys, they do not. A shape outside its bounds has no room: zeros.
    ///
    /// ```
    /// use mdeh::{Room, Shape};
    ///
    /// const SHAPE: Shape = Shape::new(&[7, 5, 7], 16);
    /// const ROOM: Room = SHAPE.room(10_000);
    /// static DIRECTORY: [u32; ROOM.words] = [0; ROOM.words];
    ///
    /// assert!(ROOM.holds);
    /// assert_eq!((DIRECTORY.len(), ROOM.bytes), (4096, 1258 * SHAPE.page_bytes()));
    /// assert_eq!(SHAPE.room(100), Room { words: 32, bytes: 21 * SHAPE.page_bytes(), holds: true });
    /// assert!(!SHAPE.room(20_000).holds);
    /// assert_eq!(Shape::new(&[7, 17], 16).room(100), Room { words: 0, bytes: 0, holds: false });
    /// ```
    #[must_use]
    pub const fn room(&self, records: u32) -> Room {
        if !self.in_bounds() {
            return Room { words: 0, bytes: 0, holds: false };
        }
        let bits = self.key_bits();
        let deepest = if bits < DEEPEST { bits } else { DEEPEST };
        let mut depth = 0;
        while depth < deepest && !self.divides(records, depth) {
            depth += 1;
        }
        if self.has_keys(records) && self.divides(records, depth) {
            return self.room_at(depth, records as usize, true);
        }
        let records = if records < MOST_RECORDS as u32 { records as usize } else { MOST_RECORDS };
        self.room_at(deepest, records, false)
    }

    /// Whether every call takes the shape.
    const fn in_bounds(&self) -> bool {
        let mut bounded =
            1 <= self.attributes && self.attributes <= 4 && 1 <= self.capacity && self.capacity <= 16;
        let mut j = 0;
        while bounded && j < self.attributes as usize {
            bounded = 1 <= self.widths[j] && self.widths[j] <= WIDEST;
            j += 1;
        }
        bounded
    }

    /// The bits of a key, W, of a shape in bounds.
    const fn key_bits(&self) -> u32 {
        let mut bits = 0;
        let mut j = 0;
        while j < self.attributes as usize {
            bits += self.widths[j];
            j += 1;
        }
        bits
    }

    /// Whether there are so many keys.
    const fn has_keys(&self, records: u32) -> bool {
        self.key_bits() >= u32::BITS || records as u64 <= 1 << self.key_bits()
    }

    /// Whether so many random keys stay within the page capacity in the cells of this depth, which is at most W: there
    /// are no more of them, no cell has more keys, or the choices of one key more than a page takes that share a cell
    /// are at most 1/1000 on the average.
    const fn divides(&self, records: u32, depth: u32) -> bool {
        let rest = self.key_bits() - depth;
        if records <= self.capacity || rest < WIDEST && 1 << rest <= self.capacity {
            return true;
        }
        let cells = (1u32 << depth) as f64;
        let mut expected = 1000.0 * cells;
        let mut i = 1;
        while i <= self.capacity + 1 {
            expected *= records as f64 / (i as f64 * cells);
            i += 1;
        }
        expected <= 1.0
    }

    /// The words of a directory of this depth, and the pages for so many records, half full: not more than leaves or records.
    const fn room_at(&self, depth: u32, records: usize, holds: bool) -> Room {
        let words = 1 << depth;
        let mut pages = (2 * records).div_ceil(self.capacity as usize) + 8;
        if pages > records {
            pages = if records == 0 { 1 } else { records };
        }
        if pages > words {
            pages = words;
        }
        Room { words, bytes: pages * self.page_bytes(), holds }
    }
}

/// A number that is a value of no attribute: calls that are given it are refused with
/// [`Refusal::Value`](crate::Refusal::Value).
pub const NO_VALUE: u32 = 1 << WIDEST;

/// The value of a rank among so many, from 0 on, spread over an attribute of this width: rank * 2^width / count,
/// rounded down.
///
/// The ranks of `count` values, evenly used, then fill the whole attribute. Order is kept: the ranks from `low` to
/// `high` are the values from `spread(low, ..)` to `spread(high, ..)`. [`rank`] takes them back.
///
/// Gives [`NO_VALUE`] for a rank of `count` or more, for a count above 2^width and for a width above 16.
///
/// ```
/// use mdeh::{rank, spread, NO_VALUE};
///
/// assert_eq!([0, 1, 2, 81].map(|release| spread(release, 82, 7)), [0, 1, 3, 126]);
/// assert_eq!([0, 1, 3, 126].map(|value| rank(value, 82, 7)), [0, 1, 2, 81]);
/// assert_eq!(spread(82, 82, 7), NO_VALUE);
/// ```
#[inline]
#[must_use]
pub const fn spread(rank: u32, count: u32, width: u32) -> u32 {
    if width > WIDEST || count > 1 << width || rank >= count {
        return NO_VALUE;
    }
    (rank << width) / count
}

/// The rank among so many whose value [`spread`] gives: value * count / 2^width, rounded up.
///
/// For a value that no rank has it is the least rank whose value is above, and `count` where there is none; `count`
/// also for a count above 2^width, a value of 2^width or more and a width above 16.
///
/// ```
/// use mdeh::{rank, spread};
///
/// assert!((0..100).all(|code| rank(spread(code, 100, 7), 100, 7) == code));
/// assert_eq!([2, 3, 4].map(|value| rank(value, 82, 7)), [2, 2, 3]); // no rank has 2
/// ```
#[inline]
#[must_use]
pub const fn rank(spread: u32, count: u32, width: u32) -> u32 {
    if width > WIDEST || count > 1 << width || spread >= 1 << width {
        return count;
    }
    (spread as u64 * count as u64).div_ceil(1 << width) as u32
}

/// The value whose `width` bits are those of this one in reverse; its own inverse.
///
/// For an attribute that is asked by equality and not by ranges: its values cluster, or their ends are not known, but
/// their lowest bits vary. Gives [`NO_VALUE`] for a value of 2^width or more and for a width above 16.
///
/// ```
/// use mdeh::{reversed, NO_VALUE};
///
/// assert_eq!([0, 1, 2, 3, 412].map(|release| reversed(release, 9)), [0, 256, 128, 384, 115]);
/// assert_eq!(reversed(115, 9), 412);
/// assert_eq!(reversed(512, 9), NO_VALUE);
/// ```
#[inline]
#[must_use]
pub const fn reversed(value: u32, width: u32) -> u32 {
    if width > WIDEST || value >= 1 << width {
        return NO_VALUE;
    }
    // in two steps, for a width of 0
    value.reverse_bits() >> (WIDEST - width) >> WIDEST
}
