//! Stores that are unsound, or may be: each is handed to a test with the model whose store it was.
use super::damage::WAYS;
use super::image::{Image, Laid, DEPTH, DEPTH_LIMIT, PAGE_LIMIT};
use super::model::Model;
use super::samples::random_model;
use crate::random::Random;

/// So many stores for each of the 25 ways to break a clause.
pub fn clause_broken(random: &mut Random, stores: usize, mut each: impl FnMut(&mut Random, &Model, &Image)) {
    for (_, break_clause) in WAYS {
        let mut made = 0;
        while made < stores {
            let model = random_model(random);
            let laid = Laid::new(random, &model);
            let Some(image) = break_clause(random, &laid) else { continue };
            made += 1;
            each(random, &model, &image);
        }
    }
}

/// Stores with several clauses of words and pages broken at once.
pub fn clauses_broken(random: &mut Random, stores: usize, mut each: impl FnMut(&mut Random, &Model, &Image)) {
    for _ in 0..stores {
        let model = random_model(random);
        let mut laid = Laid::new(random, &model);
        for _ in 0..random.between(2, 5) {
            let (_, break_clause) = WAYS[random.below(15)];
            if let Some(image) = break_clause(random, &laid) {
                laid.image = image;
            }
        }
        each(random, &model, &laid.image);
    }
}

/// Random words, random pages, or both. Every other directory has words of small depths and page numbers, under the
/// mask, and the others any bits.
pub fn random_memory(
    random: &mut Random,
    stores: usize,
    small: u32,
    mut each: impl FnMut(&mut Random, &Model, &Image),
) {
    for turn in 0..stores {
        let model = random_model(random);
        let mut image = Laid::new(random, &model).image;
        if turn % 3 != 0 {
            let words = random.words(image.dir.len());
            let mask = if turn % 2 == 0 { small } else { u32::MAX };
            image.dir = words.iter().map(|word| word & mask).collect();
            image.state[DEPTH] = random.below(model.depth_limit + 1) as u32;
        }
        if turn % 3 != 1 {
            image.pages = random.bytes(image.pages.len());
            for g in 0..model.page_limit {
                let most = u64::from(model.shape.capacity);
                let count = random.between(0, most + 1) as u16;
                image.set_count(g, count);
            }
        }
        each(random, &model, &image);
    }
}

/// States with some random words, and directories of up to 70 words.
pub fn random_states(random: &mut Random, stores: usize, mut each: impl FnMut(&mut Random, &Model, &Image)) {
    for _ in 0..stores {
        let model = random_model(random);
        let mut image = Laid::new(random, &model).image;
        image.dir.resize(random.between(0, 70) as usize, 0x1_0001);
        for word in &mut image.state {
            if random.below(8) == 0 {
                *word = [random.short(32) as u32, random.short(4) as u32][random.below(2)];
            }
        }
        each(random, &model, &image);
    }
}

/// The stores of `wild_limits`.
pub const WILD: u64 = 3 * 19 * 8 * 2;

/// Every P, L and T of these, also with slices that are long enough for them.
pub fn wild_limits(random: &mut Random, mut each: impl FnMut(&mut Random, &Model, &Image)) {
    let wild = [0, 1, 2, 11, 12, 13, 14, 31, 32, 33, 63, 64, 65, 127, 4096, 4097, 1 << 16, 1 << 31, u32::MAX];
    for place in [PAGE_LIMIT, DEPTH_LIMIT, DEPTH] {
        for value in wild {
            for _ in 0..8 {
                let model = random_model(random);
                let mut image = Laid::new(random, &model).image;
                image.state[place] = value;
                each(random, &model, &image);
                image.dir.resize(1 << 14, random.number() as u32);
                image.pages.resize(4100 * 194, random.number() as u8);
                each(random, &model, &image);
            }
        }
    }
}
