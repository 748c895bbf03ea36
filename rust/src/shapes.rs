//! Shapes and their widths: all of a size, and random ones.
use crate::host::Shape;
use crate::random::Random;

/// All widths of `count` attributes with a sum of at most `total`.
pub fn all_widths(count: usize, total: u32) -> Vec<Vec<u32>> {
    if count == 0 {
        return vec![vec![]];
    }
    let mut all = Vec::new();
    for widths in all_widths(count - 1, total) {
        let used: u32 = widths.iter().sum();
        for width in 1..=(total - used).min(16) {
            all.push([widths.clone(), vec![width]].concat());
        }
    }
    all
}

/// The widths of all 385 shapes of up to ten bits, and of four random shapes of each size from 11 to 64.
pub fn widths_of_shapes(random: &mut Random) -> Vec<Vec<u32>> {
    let mut all: Vec<Vec<u32>> = (1..=4).flat_map(|d| all_widths(d, 10)).collect();
    for total in 11..=64 {
        all.extend((0..4).map(|_| random_widths(random, total)));
    }
    assert_eq!(all.len(), 385 + 4 + 212);
    all
}

/// Random widths with this sum, each from 1 to 16.
pub fn random_widths(random: &mut Random, total: u32) -> Vec<u32> {
    let d = random.between(total.div_ceil(16) as u64, total.min(4) as u64) as usize;
    let mut widths = vec![1; d];
    while widths.iter().sum::<u32>() < total {
        let j = random.between(0, d as u64 - 1) as usize;
        widths[j] = (widths[j] + 1).min(16);
    }
    widths
}

/// A random shape of up to so many bits, and with a capacity up to `most`.
pub fn random_shape(random: &mut Random, bits: u32, most: u64) -> Shape {
    let total = random.between(1, bits.into()) as u32;
    let widths = random_widths(random, total);
    let capacity = random.between(1, most) as u32;
    marked(random, Shape::new(&widths, capacity))
}

/// The shape with marks of signed attributes: none in one of three cases, some of four in another, and in the third any
/// bits, most of which stand for no attribute.
pub fn marked(random: &mut Random, shape: Shape) -> Shape {
    let signs = random.number() as u32;
    Shape { signs: [0, signs & 15, signs][random.below(3)], ..shape }
}
