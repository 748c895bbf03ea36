//! Range queries.
use crate::raw::HostRange;
use crate::shape::Shape;
use core::ops::{Bound, RangeBounds};

/// A range query: each attribute is given an interval of values or left free.
///
/// Built from [`Range::all`], which leaves every attribute free, by [`Range::within`].
///
/// ```
/// use mdeh::Range;
///
/// let code_30 = Range::all().within(0, 30..=30).within(2, 400..=479);
/// assert_eq!(code_30, Range::all().within(0, 30..31).within(2, 400..480));
/// ```
#[derive(Clone, Copy, Debug, PartialEq, Eq)]
pub struct Range {
    intervals: [Option<Interval>; 4],
    /// whether an attribute that no shape has is given
    pub(crate) beyond: bool,
}

/// An interval whose ends may depend on the attribute.
#[derive(Clone, Copy, Debug, PartialEq, Eq)]
struct Interval {
    /// none for the least value of the attribute
    low: Option<i32>,
    /// unbounded for the greatest value; excluded only where it may be the least, which has no neighbour below
    high: Bound<i32>,
}

impl Range {
    /// The range that every record lies in.
    #[inline]
    pub const fn all() -> Range {
        Range { intervals: [None; 4], beyond: false }
    }

    /// The range that also wants a value of this interval of this attribute, counted from 0. It takes the place of an
    /// interval that the attribute was given before.
    ///
    /// The interval is any range of Rust: `400..=479` and `400..480` are the values from 400 to 479, `400..` those from
    /// 400 on, `..480` those below 480, `..` all. An end that is left out is the least or the greatest value of the
    /// attribute ([`Shape::values`]). An excluded end stands for its neighbour inside.
    ///
    /// A range that names an attribute which the store's shape does not have is refused with
    /// [`Refusal::Attribute`](crate::Refusal::Attribute), whatever the interval; an end that is no value of the
    /// attribute with [`Refusal::Value`](crate::Refusal::Value). An interval without a value, as `7..7`, `479..=400` or
    /// one that ends before the least value, is not answered with an empty list: it is refused with
    /// [`Refusal::Interval`](crate::Refusal::Interval) where its ends are values of the attribute, and with `Value`
    /// where one is not, so too for a start that excludes the greatest value.
    ///
    /// ```
    /// use mdeh::{Range, Refusal, Shape, Store, STATE_WORDS};
    ///
    /// let mut store = Store::fresh(Shape::new(&[4, 4], 2).signed(1), [0; STATE_WORDS], [0; 8], [0; 60])?;
    /// store.insert([7, -3], 13)?;
    /// let total = |range| store.range(range, &mut []).map(|listing| listing.total);
    ///
    /// assert_eq!(total(Range::all().within(0, 7..16)), Ok(1));
    /// assert_eq!(total(Range::all().within(0, ..7)), Ok(0));
    /// assert_eq!(total(Range::all().within(0, 7..7)), Err(Refusal::Interval));
    /// assert_eq!(total(Range::all().within(0, ..0)), Err(Refusal::Interval));
    /// assert_eq!(total(Range::all().within(0, 7..=16)), Err(Refusal::Value));
    /// assert_eq!(total(Range::all().within(0, 16..)), Err(Refusal::Value));
    /// assert_eq!(total(Range::all().within(0, -1..7)), Err(Refusal::Value));
    /// assert_eq!(total(Range::all().within(2, ..)), Err(Refusal::Attribute));
    ///
    /// // the signed attribute has values from -8 to 7
    /// assert_eq!(total(Range::all().within(1, -3..8)), Ok(1));
    /// assert_eq!(total(Range::all().within(1, ..0)), Ok(1));
    /// assert_eq!(total(Range::all().within(1, 0..)), Ok(0));
    /// assert_eq!(total(Range::all().within(1, ..-8)), Err(Refusal::Interval));
    /// assert_eq!(total(Range::all().within(1, 3..=-3)), Err(Refusal::Interval));
    /// assert_eq!(total(Range::all().within(1, ..-9)), Err(Refusal::Value));
    /// assert_eq!(total(Range::all().within(1, ..=8)), Err(Refusal::Value));
    /// # Ok::<(), Refusal>(())
    /// ```
    #[inline]
    #[must_use]
    pub fn within(mut self, attribute: usize, values: impl RangeBounds<i32>) -> Range {
        if attribute >= 4 {
            self.beyond = true;
            return self;
        }
        let low = match values.start_bound() {
            Bound::Included(&low) => Some(low),
            // past every width, if there is no neighbour
            Bound::Excluded(&before) => Some(before.saturating_add(1)),
            Bound::Unbounded => None,
        };
        let high = match values.end_bound() {
            Bound::Excluded(&past) if past > 0 || low.is_some_and(|low| low < past) => {
                Bound::Included(past - 1)
            }
            end => end.cloned(),
        };
        self.intervals[attribute] = Some(Interval { low, high });
        self
    }

    /// The intervals with both ends included, for a store of this shape.
    #[inline]
    pub(crate) fn closed(&self, shape: Shape) -> HostRange {
        let mut raw = HostRange { given: [0; 4], low: [0; 4], high: [0; 4] };
        for (j, interval) in self.intervals.iter().enumerate() {
            if let Some(interval) = interval {
                raw.given[j] = 1;
                (raw.low[j], raw.high[j]) = interval.closed(shape.values(j).into_inner());
            }
        }
        raw
    }
}

impl Interval {
    /// Both ends, for an attribute of these least and greatest values. An end is no value where it was none.
    #[inline]
    fn closed(self, (least, greatest): (i32, i32)) -> (i32, i32) {
        let low = self.low.unwrap_or(least);
        match self.high {
            Bound::Included(high) => (low, high),
            Bound::Unbounded => (low, greatest),
            // nothing is below the least value: from the next one to it is as empty
            Bound::Excluded(past) if past == least && low == least => (least + 1, least),
            Bound::Excluded(past) if past == least => (low, least),
            // below every value, if there is no neighbour
            Bound::Excluded(past) => (low, past.saturating_sub(1)),
        }
    }
}

#[cfg(test)]
mod tests {
    use super::*;
    use core::ops::Bound::{Excluded, Included, Unbounded};

    /// The number that the library gives for these ends, or 0.
    fn number((low, high): (i32, i32), (least, greatest): (i32, i32)) -> u32 {
        let is_value = |end: i32| least <= end && end <= greatest;
        match () {
            _ if !is_value(low) || !is_value(high) => 3,
            _ if low > high => 10,
            _ => 0,
        }
    }

    /// Each form of a range about the least and the greatest value, about 0 and at the ends of `i32`.
    fn compare(shape: Shape) {
        let (least, greatest) = shape.values(0).into_inner();
        let near = [least, greatest, 0].into_iter().flat_map(|value| value - 2..=value + 2);
        let near = near.chain([i32::MIN, i32::MIN + 1, i32::MAX - 1, i32::MAX]);
        let bounds = near.flat_map(|value| [Included(value), Excluded(value)]).chain([Unbounded]);
        for start in bounds.clone() {
            let low = match start {
                Included(low) => i64::from(low),
                Excluded(before) => i64::from(before) + 1,
                Unbounded => least.into(),
            };
            for end in bounds.clone() {
                let high = match end {
                    Included(high) => i64::from(high),
                    Excluded(past) => i64::from(past) - 1,
                    Unbounded => greatest.into(),
                };
                let is_value = |end: i64| i64::from(least) <= end && end <= i64::from(greatest);
                let expected = match () {
                    _ if !is_value(low) => 3,
                    _ if end == Excluded(least) => 10,
                    _ if !is_value(high) => 3,
                    _ if low > high => 10,
                    _ => 0,
                };
                let raw = Range::all().within(0, (start, end)).closed(shape);
                let ends = (raw.low[0], raw.high[0]);
                assert_eq!(number(ends, (least, greatest)), expected, "{shape:?} {start:?} {end:?}");
                if expected == 0 {
                    assert_eq!((i64::from(ends.0), i64::from(ends.1)), (low, high), "{start:?} {end:?}");
                }
            }
        }
    }

    #[test]
    fn ends_beside_the_shape() {
        for width in 1..=16 {
            compare(Shape::new(&[width], 1));
            compare(Shape::new(&[width], 1).signed(0));
        }
    }

    /// Such shapes are refused, whatever the ends.
    #[test]
    fn shapes_outside_their_bounds() {
        for width in [0, 17, 31, 32, 33, u32::MAX] {
            for attributes in [0, 1, 4, 5, u32::MAX] {
                let shape = Shape { attributes, widths: [width; 4], capacity: 1, signs: u32::MAX };
                (0..6).for_each(|j| assert!(shape.values(j).contains(&0)));
                let range = (0..4).fold(Range::all(), |range, j| range.within(j, ..0));
                assert_eq!(range.closed(shape).given, [1; 4]);
            }
        }
    }
}
