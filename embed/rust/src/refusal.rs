//! Why a call is refused.
use crate::raw::Refused;
use core::error::Error;
use core::fmt::{self, Display, Formatter};

/// The reason for a refusal, the first that holds in the order of the calls' documentation. A refused call has changed
/// nothing.
///
/// ```
/// use mdeh::{Refusal, Shape, Store, STATE_WORDS};
///
/// let mut store = Store::fresh(Shape::new(&[4, 4], 1), [0; STATE_WORDS], [0; 1], [0; 14])?;
/// store.insert([3, 9], 7)?;
///
/// let refusal = store.insert([3, 16], 8).unwrap_err();
/// assert_eq!(refusal, Refusal::Value);
/// assert_eq!(refusal.number(), 3);
/// assert_eq!(refusal.to_string(), "a value, index or address is outside its bounds, or an unused value is not 0");
///
/// let refusal = store.delete([3, 8]).unwrap_err();
/// assert_eq!(refusal, Refusal::Absent { depth: 0 });
/// assert_eq!((refusal.number(), refusal.to_string()), (5, "the key is not stored".into()));
///
/// let refusal = Store::fresh(Shape::new(&[4, 17], 1), [0; STATE_WORDS], [0; 1], [0; 14]).unwrap_err();
/// assert_eq!(refusal, Refusal::Width { attribute: 1 });
/// assert_eq!((refusal.number(), refusal.to_string()), (14, "the width of attribute 1 is outside 1 to 16".into()));
/// # Ok::<(), Refusal>(())
/// ```
#[derive(Clone, Copy, Debug, PartialEq, Eq, Hash)]
pub enum Refusal {
    /// Number 1: an attribute count outside 1 to 4, also in the state of a store that is opened and in a file. All calls
    /// but fresh and load: fewer words than a state has, which show no shape.
    Shape,
    /// Number 2. Fresh and load: fewer words than a state has, no directory word or no whole page. Later: fewer words or
    /// pages than the store has use for. Save: an output that is shorter than the file.
    Memory,
    /// Number 3: a number that is no value of its attribute ([`Shape::values`](crate::Shape::values)), an index past
    /// its attribute's width, an address past the last, or an unused value other than 0.
    Value,
    /// Number 4. Insert: the key is stored already.
    Stored,
    /// Number 5. Lookup and delete: the key is not stored.
    Absent {
        /// the depth of the leaf in which the key falls, which may have no records
        depth: u32,
    },
    /// Number 6. Insert: a full page holds keys that the directory cannot tell from this one at its greatest depth.
    /// Load: so of some record and those before it.
    Depth,
    /// Number 7. Insert and load: the records would need more pages than there are.
    Pages,
    /// Number 8. Query and range: an attribute is given that the shape does not have.
    Attribute,
    /// Number 9: the memory does not hold a sound store, as [`Store::check`](crate::Store::check) finds it: it was
    /// damaged, and the store is to be rebuilt from the event records.
    Unsound,
    /// Number 10. Range: the low end of an interval is above its high end.
    Interval,
    /// Number 11. Insert: the payload is 0, which hosts read as "no log line".
    Payload,
    /// Number 12. Load: the bytes are no whole file: they are too few, or the letters, the distances or the length are
    /// others.
    File,
    /// Number 13. Load: a stray byte in the shape, a value outside its bounds, or records that do not strictly rise in
    /// split order.
    Content,
    /// Number 14: a width outside 1 to 16, also in the state of a store that is opened and in a file.
    Width {
        /// the attribute that has it, counted from 0; the lowest where there are several
        attribute: usize,
    },
    /// Number 15: a page capacity outside 1 to 16, also in the state of a store that is opened and in a file.
    Capacity,
}

impl Refusal {
    /// The number of the C interface.
    #[inline]
    pub const fn number(self) -> u32 {
        match self {
            Refusal::Shape => 1,
            Refusal::Memory => 2,
            Refusal::Value => 3,
            Refusal::Stored => 4,
            Refusal::Absent { .. } => 5,
            Refusal::Depth => 6,
            Refusal::Pages => 7,
            Refusal::Attribute => 8,
            Refusal::Unsound => 9,
            Refusal::Interval => 10,
            Refusal::Payload => 11,
            Refusal::File => 12,
            Refusal::Content => 13,
            Refusal::Width { .. } => 14,
            Refusal::Capacity => 15,
        }
    }

    /// The reason with a number from 1 to 15, the attribute that 14 carries and the depth that 5 carries; the library
    /// gives no other.
    #[inline]
    pub(crate) fn of(Refused { number, attribute, depth }: Refused) -> Refusal {
        match number {
            1 => Refusal::Shape,
            2 => Refusal::Memory,
            3 => Refusal::Value,
            4 => Refusal::Stored,
            5 => Refusal::Absent { depth },
            6 => Refusal::Depth,
            7 => Refusal::Pages,
            8 => Refusal::Attribute,
            10 => Refusal::Interval,
            11 => Refusal::Payload,
            12 => Refusal::File,
            13 => Refusal::Content,
            14 => Refusal::Width { attribute: attribute as usize },
            15 => Refusal::Capacity,
            _ => Refusal::Unsound,
        }
    }
}

impl Display for Refusal {
    fn fmt(&self, f: &mut Formatter<'_>) -> fmt::Result {
        f.write_str(match self {
            Refusal::Shape => "the attribute count is outside 1 to 4, or the words of a state are too few",
            Refusal::Memory => "too few words or bytes are lent",
            Refusal::Value => "a value, index or address is outside its bounds, or an unused value is not 0",
            Refusal::Stored => "the key is stored already",
            Refusal::Absent { .. } => "the key is not stored",
            Refusal::Depth => "the directory cannot grow deep enough to tell the keys apart",
            Refusal::Pages => "there are too few pages",
            Refusal::Attribute => "the query or range gives an attribute that the shape does not have",
            Refusal::Unsound => "the store is not sound",
            Refusal::Interval => "an interval's low end is above its high end",
            Refusal::Payload => "the payload is 0",
            Refusal::File => "the bytes are no whole file",
            Refusal::Content => "the file has a stray byte, a value out of bounds or records out of order",
            Refusal::Width { attribute } => {
                return write!(f, "the width of attribute {attribute} is outside 1 to 16");
            }
            Refusal::Capacity => "the page capacity is outside 1 to 16",
        })
    }
}

impl Error for Refusal {}

#[cfg(test)]
mod tests {
    use super::{Refusal, Refused};

    #[test]
    fn each_number_names_its_reason() {
        for number in 1..=15 {
            assert_eq!(Refusal::of(Refused { number, attribute: 0, depth: 0 }).number(), number);
        }
    }

    #[test]
    fn number_5_alone_carries_its_depth() {
        for number in 1..=15 {
            let refusals = [0, 3].map(|depth| Refusal::of(Refused { number, attribute: 2, depth }));
            assert_eq!(refusals[0] == refusals[1], number != 5);
        }
        let absent = Refusal::of(Refused { number: 5, attribute: 0, depth: 3 });
        assert_eq!(absent, Refusal::Absent { depth: 3 });
    }

    #[test]
    fn number_14_alone_carries_its_attribute() {
        for number in 1..=15 {
            let refusals = [0, 3].map(|attribute| Refusal::of(Refused { number, attribute, depth: 2 }));
            assert_eq!(refusals[0] == refusals[1], number != 14);
        }
        let width = Refusal::of(Refused { number: 14, attribute: 3, depth: 0 });
        assert_eq!(width, Refusal::Width { attribute: 3 });
    }
}
