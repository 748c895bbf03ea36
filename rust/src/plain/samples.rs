//! Random models, keys and payloads.
use super::image::{Image, STATE};
use super::model::Model;
use super::range::Intervals;
use super::refusal::{bad_width, refusal};
use super::value::bounds;
use crate::host::{Refused, Shape};
use crate::random::Random;
use crate::shapes::{marked, random_widths};

/// A model of a random shape, with random limits and as many records as a random number of inserts leaves. Few bits,
/// low limits and small capacities are likely, and so are full stores and keys with long common beginnings. One record
/// in eight has payload 0: "Stores that already hold such payloads stay sound". Two shapes in three have marks.
pub fn random_model(random: &mut Random) -> Model {
    let most = [6, 14, 64][random.below(3)];
    let total = random.between(1, most) as u32;
    let widths = random_widths(random, total);
    let most = [3, 16][random.below(2)];
    let capacity = random.between(1, most) as u32;
    let shape = marked(random, Shape::new(&widths, capacity));
    let depth_limit = [total.min(12) as usize, random.below(total.min(12) as usize + 1)][random.below(2)];
    let page_limit = 1 + random.below(40);
    let mut model = Model::new(shape, page_limit, depth_limit);
    let most = page_limit * shape.capacity as usize;
    for _ in 0..random.below(2 * most + 2).min(250) {
        let key = random_key(random, &model);
        let payload = given_payload(random);
        // a refused record is left out
        let _ = model.insert(key, payload);
    }
    model.records.iter_mut().filter(|_| random.below(8) == 0).for_each(|record| record.payload = 0);
    model
}

/// A key within the shape's bounds: half of them have their first bits, up to a random one, from a stored key, and one
/// in eight is a stored key.
pub fn random_key(random: &mut Random, model: &Model) -> [i32; 4] {
    let total = model.widths().iter().sum::<u32>() as usize;
    let mut bits: Vec<bool> = (0..total).map(|_| random.below(2) == 1).collect();
    if !model.records.is_empty() && random.below(2) == 1 {
        let stored = &model.records[random.below(model.records.len())].bits;
        let common = if random.below(4) == 0 { total } else { random.below(total) };
        bits[..common].copy_from_slice(&stored[..common]);
    }
    model.key_of(&bits)
}

/// A payload that an insert takes: any but 0.
pub fn given_payload(random: &mut Random) -> u32 {
    random.between(1, u32::MAX.into()) as u32
}

/// A payload, in one of eight cases 0.
pub fn random_payload(random: &mut Random) -> u32 {
    match random.below(8) {
        0 => 0,
        _ => given_payload(random),
    }
}

/// A query that gives the attributes of a subset (bit j for attribute j) the values of a key.
pub fn query_of(subset: usize, key: [i32; 4]) -> [Option<i32>; 4] {
    [0, 1, 2, 3].map(|j| (subset >> j & 1 == 1).then_some(key[j]))
}

/// A range that gives the attributes of a subset (bit j for attribute j) intervals at the values of two keys: from one
/// to the other, one value, or with an end at the least or the greatest value or one value off. Three in eighty have
/// their ends reversed or one out of bounds.
pub fn range_of(random: &mut Random, model: &Model, subset: usize, keys: [[i32; 4]; 2]) -> Intervals {
    [0, 1, 2, 3].map(|j| {
        let (least, greatest) = bounds(model.shape, j);
        let [low, high] = [keys[0][j].min(keys[1][j]), keys[0][j].max(keys[1][j])];
        let ends = match random.below(8) {
            0 => (low, low),
            1 => (least, high),
            2 => (low, greatest),
            3 => (least.max(low.saturating_sub(1)), high),
            4 => (low, greatest.min(high.saturating_add(1))),
            _ => (low, high),
        };
        let ends = match random.below(80) {
            0 => (ends.1, ends.0),
            1 => (ends.0, greatest + 1),
            2 => (least - 1, ends.1),
            _ => ends,
        };
        (subset >> j & 1 == 1).then_some(ends)
    })
}

/// Numbers that are no values of attribute j: those next to its bounds, and others at the ends of 16 and of 32 bits.
pub fn outside(shape: Shape, j: usize) -> [i32; 8] {
    let (least, greatest) = bounds(shape, j);
    [least - 1, least - 2, -(1 << 16), i32::MIN, greatest + 1, greatest + 2, 1 << 16, i32::MAX]
}

/// A store with a bad shape, too few state words, words or pages, or several of these, and the refusal of each.
pub fn early_refused(image: &Image, model: &Model) -> Vec<(Image, Refused)> {
    let changed = |change: &dyn Fn(&mut Image), refused| {
        let mut image = image.clone();
        change(&mut image);
        (image, refused)
    };
    let words = (1 << model.depth_limit) - 1;
    let bytes = image.clone().page(0).len() * model.page_limit - 1;
    let last = model.shape.attributes;
    vec![
        changed(&|image| image.state[0] = 5, refusal(1)),
        changed(&|image| image.state[1] = 17, bad_width(0)),
        changed(&|image| image.state[last as usize] = 0, bad_width(last - 1)),
        changed(&|image| image.state[5] = 0, refusal(15)),
        changed(&|image| image.state.truncate(STATE - 1), refusal(1)),
        changed(&|image| image.state.clear(), refusal(1)),
        changed(&|image| image.dir.truncate(words), refusal(2)),
        changed(&|image| image.pages.truncate(bytes), refusal(2)),
        changed(&|image| (image.dir, image.pages, image.state[5]) = (vec![], vec![], 17), refusal(15)),
        changed(&|image| (image.dir, image.state[1], image.state[5]) = (vec![], 0, 0), bad_width(0)),
        changed(&|image| (image.pages, image.state[0], image.state[1]) = (vec![], 0, 0), refusal(1)),
    ]
}

/// How many stores `early_refused` makes.
pub const EARLY: u64 = 11;
