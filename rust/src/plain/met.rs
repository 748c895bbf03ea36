//! Damage that every call on a leaf's keys meets: words and counts that no leaf of a sound store has.
use super::image::{word_of, Image, Laid, Placed, DEPTH, PAGE_LIMIT};
use super::model::Model;
use super::samples::random_model;
use crate::random::Random;

const STORES: usize = 500;

/// How many stores `each_damaged_word` tries.
pub const DAMAGED_WORDS: u64 = STORES as u64 * 10;

/// How many stores `each_damaged_count` tries.
pub const DAMAGED_COUNTS: u64 = STORES as u64 * 5;

/// Random sound stores, in which all cells of a leaf have a word that no leaf there can have.
pub fn each_damaged_word(seed: u64, mut test: impl FnMut(&mut Random, &Model, &Placed, &Image)) {
    let mut random = Random::new(seed);
    for _ in 0..STORES {
        let model = random_model(&mut random);
        let laid = Laid::new(&mut random, &model);
        let placed = &laid.leaves[random.below(laid.leaves.len())];
        for word in damaged_words(&mut random, &laid, placed) {
            let mut image = laid.image.clone();
            placed.cells.iter().for_each(|&a| image.dir[a] = word);
            test(&mut random, &model, placed, &image);
        }
    }
}

/// How many stores `each_shallow_word` tries.
pub const SHALLOW_WORDS: u64 = 500;

/// The word of a leaf that is a 1-side says less than its depth: a walk comes to it by the 0-side's word.
pub fn each_shallow_word(seed: u64, mut test: impl FnMut(&mut Random, &Model, &Placed, &Image)) {
    let mut random = Random::new(seed);
    let mut stores = 0;
    while stores < SHALLOW_WORDS {
        let model = random_model(&mut random);
        let laid = Laid::new(&mut random, &model);
        let placed = &laid.leaves[random.below(laid.leaves.len())];
        if placed.leaf.bits.last() != Some(&true) {
            continue;
        }
        stores += 1;
        let depth = random.below(placed.leaf.depth());
        let mut image = laid.image.clone();
        placed.cells.iter().for_each(|&a| image.dir[a] = word_of(placed.page, depth));
        test(&mut random, &model, placed, &image);
    }
}

/// Words that no leaf of a sound store can have where a leaf is placed.
fn damaged_words(random: &mut Random, laid: &Laid, placed: &Placed) -> [u32; 10] {
    let (t, p) = (laid.image.state[DEPTH] as usize, laid.image.state[PAGE_LIMIT] as usize);
    let deep = t + 1 + random.below(15 - t);
    let past = p + random.below(65_535 - p);
    // a depth that has no leaf
    let bare = usize::from(t == 0);
    [
        placed.word | 1 << random.between(20, 31),
        word_of(placed.page, bare),
        word_of(None, bare),
        word_of(placed.page, t + 1),
        word_of(placed.page, deep),
        word_of(None, deep),
        word_of(Some(p), placed.leaf.depth()),
        word_of(Some(past), placed.leaf.depth()),
        word_of(Some(65_534), placed.leaf.depth()),
        u32::MAX,
    ]
}

/// Random sound stores, in which a leaf's page has a count that no leaf's page can have.
pub fn each_damaged_count(seed: u64, mut test: impl FnMut(&mut Random, &Model, &Placed, &Image)) {
    let mut random = Random::new(seed);
    let mut stores = 0;
    while stores < STORES {
        let model = random_model(&mut random);
        let laid = Laid::new(&mut random, &model);
        let placed = &laid.leaves[random.below(laid.leaves.len())];
        let Some(page) = placed.page else { continue };
        stores += 1;
        let b = model.shape.capacity as u16;
        for damaged in [0, b + 1, b + 256, 1 << 15, u16::MAX] {
            let mut image = laid.image.clone();
            image.set_count(page, damaged);
            test(&mut random, &model, placed, &image);
        }
    }
}
