//! Values of attributes (document 01, "Shape and split steps"; document 02, request 4): their bounds, their encodings,
//! and the fields of pages and output that hold them. Marks are read here alone.
use crate::host::Shape;

/// "A shape may mark an attribute as signed": by bit j for attribute j. "A mark past d is ignored".
fn is_marked(shape: Shape, j: usize) -> bool {
    j < shape.attributes as usize && shape.signs >> j & 1 == 1
}

/// The marks that count: "A mark past d is ignored, and Fresh clears it".
pub fn used_signs(shape: Shape) -> u32 {
    (0..4).filter(|&j| is_marked(shape, j)).map(|j| 1 << j).sum()
}

/// The least and the greatest value of attribute j: "a whole number below 2^w_j"; of a marked one "from −2^(w−1) to
/// 2^(w−1) − 1"; of an unused one 0.
pub fn bounds(shape: Shape, j: usize) -> (i32, i32) {
    match shape.widths[..shape.attributes as usize].get(j) {
        None => (0, 0),
        Some(&width) if is_marked(shape, j) => (-(1 << (width - 1)), (1 << (width - 1)) - 1),
        Some(&width) => (0, (1 << width) - 1),
    }
}

/// Whether a number is one of the values of attribute j.
pub fn is_value(shape: Shape, j: usize, number: i32) -> bool {
    let (least, greatest) = bounds(shape, j);
    least <= number && number <= greatest
}

/// "Its encoding is the value itself"; of a marked attribute "the value plus 2^(w−1)". Of a number that is no value the
/// last w_j bits count.
pub fn encoding(shape: Shape, j: usize, value: i32) -> u32 {
    match is_marked(shape, j) {
        true => value.wrapping_add(1 << (shape.widths[j] - 1)) as u32,
        false => value as u32,
    }
}

/// The value that has an encoding.
pub fn value_of(shape: Shape, j: usize, encoding: u32) -> i32 {
    match is_marked(shape, j) {
        true => encoding as i32 - (1 << (shape.widths[j] - 1)),
        false => encoding as i32,
    }
}

/// "Pages and output hold the value in 16-bit two's complement."
pub fn field_of(value: i32) -> u16 {
    value as u16
}

/// The number that a field holds: below 0 from 2^15 on where attribute j is marked.
pub fn number_in(shape: Shape, j: usize, field: u16) -> i32 {
    match is_marked(shape, j) {
        true => (field as i16).into(),
        false => field.into(),
    }
}
