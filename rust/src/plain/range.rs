//! Ranges (document 02, requests 1 and 4), by intervals of values.
use super::leaves::{Leaf, Record};
use super::model::Model;
use super::refusal::refusal;
use super::value::is_value;
use crate::host::{Refused, Shape};

/// "leaves each attribute free or gives it an interval, low to high, both included".
pub type Intervals = [Option<(i32, i32)>; 4];

/// 8 for an interval of attribute d or above, then 3 for an end out of bounds in any attribute, then "10, low above high
/// in some attribute, checked after 3".
pub fn range_refused(shape: Shape, range: Intervals) -> Option<Refused> {
    if range[shape.attributes as usize..].iter().any(Option::is_some) {
        return Some(refusal(8));
    }
    let outside = |j, (low, high)| !is_value(shape, j, low) || !is_value(shape, j, high);
    if (0..4).any(|j| range[j].is_some_and(|ends| outside(j, ends))) {
        return Some(refusal(3));
    }
    range.iter().flatten().any(|(low, high)| low > high).then_some(refusal(10))
}

impl Record {
    /// "inside the box".
    pub fn lies_in(&self, range: Intervals) -> bool {
        range
            .iter()
            .zip(self.key)
            .all(|(ends, value)| ends.is_none_or(|(low, high)| low <= value && value <= high))
    }
}

impl Model {
    /// The "box of values" of a region: the least and the greatest value of each attribute that its keys have.
    pub fn box_of(&self, region: &[bool]) -> ([i32; 4], [i32; 4]) {
        let total = self.widths().iter().sum::<u32>() as usize;
        let filled = |bit| [region, &vec![bit; total - region.len()]].concat();
        (self.key_of(&filled(false)), self.key_of(&filled(true)))
    }

    /// Whether a region's "box of values meets the query's".
    pub fn meets(&self, region: &[bool], range: Intervals) -> bool {
        let (least, greatest) = self.box_of(region);
        (0..4).all(|j| range[j].is_none_or(|(low, high)| low <= greatest[j] && least[j] <= high))
    }

    /// The leaves that meet a range.
    pub fn meeting(&self, range: Intervals) -> Vec<Leaf> {
        let mut leaves = self.leaves();
        leaves.retain(|leaf| self.meets(&leaf.bits, range));
        leaves
    }
}
