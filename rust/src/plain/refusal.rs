//! The refusals that need no look into words and pages, from the table of document 01, "Refused calls", and from
//! document 02, requests 2, 4 and 7; and what refusals carry, from its requests 6 and 7.
use super::value::is_value;
use crate::host::{Refused, Shape};

/// A refusal that carries nothing: "no other number carries a depth" than 5, and 14 alone names an attribute.
pub const fn refusal(number: u32) -> Refused {
    assert!(number != 5 && number != 14, "5 carries a depth, 14 an attribute");
    Refused { number, attribute: 0, depth: 0 }
}

/// "number 5 carries the depth of the present leaf that the absent key's split bits begin with".
pub const fn absent(depth: u32) -> Refused {
    Refused { number: 5, attribute: 0, depth }
}

/// 14: "A bad width names its attribute".
pub const fn bad_width(attribute: u32) -> Refused {
    Refused { number: 14, attribute, depth: 0 }
}

/// A page's bytes: "A page has 2 + 12b bytes".
pub fn page_size(shape: Shape) -> usize {
    2 + 12 * shape.capacity as usize
}

/// The widths that count: "Widths past d are ignored".
pub fn used_widths(shape: Shape) -> Vec<u32> {
    shape.widths[..shape.attributes as usize].to_vec()
}

/// "Number 1 remains for the attribute count"; "14, a width outside 1–16, after 1", which names "the lowest where there
/// are several"; "then 15, capacity outside 1–16".
pub fn shape_refused(shape: Shape) -> Option<Refused> {
    if !(1..=4).contains(&shape.attributes) {
        return Some(refusal(1));
    }
    let outside = used_widths(shape).iter().position(|width| !(1..=16).contains(width));
    if let Some(j) = outside {
        return Some(bad_width(j as u32));
    }
    (!(1..=16).contains(&shape.capacity)).then_some(refusal(15))
}

/// 2, of a later call: "fewer than 2^L words or P pages", whatever P and L are.
pub fn memory_refused(shape: Shape, page_limit: u32, depth_limit: u32, words: usize, bytes: usize) -> bool {
    let words_needed = 1u128.checked_shl(depth_limit).unwrap_or(u128::MAX);
    (words as u128) < words_needed || (bytes as u128) < page_limit as u128 * page_size(shape) as u128
}

/// 3: "value or index of 2^w_j or more .. unused key or index value not 0"; "Number 3 uses these bounds for values of a
/// marked attribute .. any other value below 0 gets it too".
pub fn key_refused(shape: Shape, key: [i32; 4]) -> bool {
    (0..4).any(|j| !is_value(shape, j, key[j]))
}

/// 3, then "11, payload 0 on insert, after 3 and before 4".
pub fn insert_refused(shape: Shape, key: [i32; 4], payload: u32) -> Option<Refused> {
    if key_refused(shape, key) {
        return Some(refusal(3));
    }
    (payload == 0).then_some(refusal(11))
}

/// 8: "query names attribute d or above", then 3 for a given value; "A value of a free attribute is ignored."
pub fn query_refused(shape: Shape, query: [Option<i32>; 4]) -> Option<Refused> {
    if query[shape.attributes as usize..].iter().any(Option::is_some) {
        return Some(refusal(8));
    }
    (0..4).any(|j| query[j].is_some_and(|value| !is_value(shape, j, value))).then_some(refusal(3))
}
