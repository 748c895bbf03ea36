//! What the records of a store look like.
use crate::record::RECORD_BYTES;
use core::ops::RangeInclusive;

/// The attribute count, a width in bits for each attribute, the page capacity, and the marks of signed attributes.
///
/// In bounds are one to four attributes, widths of 1 to 16 and a capacity of 1 to 16 records. Any other values can be
/// written down too: a call that is given them, itself, in a state or in a file, says what to correct. It is refused
/// with [`Refusal::Shape`](crate::Refusal::Shape) for the attribute count, then with
/// [`Refusal::Width`](crate::Refusal::Width), which names the lowest attribute whose width is out of bounds, then with
/// [`Refusal::Capacity`](crate::Refusal::Capacity).
///
/// ```
/// use mdeh::{Refusal, Shape, Store, STATE_WORDS};
///
/// let shape = Shape::new(&[8, 8, 10], 16);
/// assert_eq!(shape.page_bytes(), 194);
///
/// let refused = |shape| Store::fresh(shape, [0; STATE_WORDS], [0; 8], [0; 1000]).unwrap_err();
/// assert_eq!(refused(Shape::new(&[8, 8, 8, 8, 8], 16)), Refusal::Shape);
/// assert_eq!(refused(Shape::new(&[8, 17, 0], 20)), Refusal::Width { attribute: 1 });
/// assert_eq!(refused(Shape::new(&[8, 10, 0], 20)), Refusal::Width { attribute: 2 });
/// assert_eq!(refused(Shape::new(&[8, 10], 20)), Refusal::Capacity);
/// ```
#[repr(C)]
#[derive(Clone, Copy, Debug, PartialEq, Eq)]
pub struct Shape {
    /// how many attributes a key has, d
    pub attributes: u32,
    /// the width of each attribute in bits; those past d are ignored
    pub widths: [u32; 4],
    /// how many records a page holds, b
    pub capacity: u32,
    /// bit j marks attribute j as signed; those past d are ignored
    pub signs: u32,
}

impl Shape {
    /// The shape with these widths, one for each attribute, and this page capacity, no attribute marked as signed. More
    /// than four widths give an attribute count outside its bounds.
    #[inline]
    pub const fn new(widths: &[u32], capacity: u32) -> Shape {
        let mut four = [0; 4];
        let mut attributes = 0;
        while attributes < widths.len() && attributes < 4 {
            four[attributes] = widths[attributes];
            attributes += 1;
        }
        if attributes < widths.len() {
            attributes += 1;
        }
        Shape { attributes: attributes as u32, widths: four, capacity, signs: 0 }
    }

    /// The shape that also marks this attribute, counted from 0, as signed. One that the shape does not have is marked
    /// to no effect, one that no shape can have is ignored.
    ///
    /// ```
    /// use mdeh::Shape;
    ///
    /// const DRIVES: Shape = Shape::new(&[6, 10], 16).signed(1); // a drive's number, its position offset
    /// assert!(!DRIVES.is_signed(0) && DRIVES.is_signed(1));
    /// assert_eq!(DRIVES.signs, 0b10);
    /// assert!(!DRIVES.signed(2).is_signed(2));
    /// assert_eq!(DRIVES.signed(4), DRIVES);
    /// ```
    #[inline]
    #[must_use]
    pub const fn signed(mut self, attribute: usize) -> Shape {
        if attribute < 4 {
            self.signs |= 1 << attribute;
        }
        self
    }

    /// Whether the shape has this attribute, and marks it as signed.
    #[inline]
    pub const fn is_signed(&self, attribute: usize) -> bool {
        attribute < 4 && (attribute as u32) < self.attributes && self.signs >> attribute & 1 == 1
    }

    /// The values of an attribute of width w: 0 to 2^w - 1, or -2^(w-1) to 2^(w-1) - 1 where it is marked; 0 for one
    /// that the shape does not have. Some values of a shape outside its bounds, which every call refuses.
    ///
    /// ```
    /// use mdeh::Shape;
    ///
    /// let shape = Shape::new(&[6, 10], 16).signed(1);
    /// assert_eq!([0, 1, 2].map(|attribute| shape.values(attribute)), [0..=63, -512..=511, 0..=0]);
    /// ```
    #[inline]
    pub const fn values(&self, attribute: usize) -> RangeInclusive<i32> {
        if attribute >= 4 || attribute as u32 >= self.attributes {
            return 0..=0;
        }
        let count = match self.widths[attribute] {
            width @ 0..=16 => 1 << width,
            _ => 1 << 16,
        };
        let least = if self.is_signed(attribute) { -(count / 2) } else { 0 };
        least..=least + count - 1
    }

    /// The bytes of one page: 2 for its count, and its records.
    #[inline]
    pub const fn page_bytes(&self) -> usize {
        RECORD_BYTES.saturating_mul(self.capacity as usize).saturating_add(2)
    }
}
