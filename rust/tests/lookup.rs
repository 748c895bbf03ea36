//! The call lookup on sound stores and on what it meets of unsound ones, compared with a list scanned in full.
use mdeh_tests::compare::Comparisons;
use mdeh_tests::host::Shape;
use mdeh_tests::lent::LentStore;
use mdeh_tests::plain::image::{Image, Laid};
use mdeh_tests::plain::met::{each_damaged_count, each_damaged_word, DAMAGED_COUNTS, DAMAGED_WORDS};
use mdeh_tests::plain::model::Model;
use mdeh_tests::plain::refusal::refusal;
use mdeh_tests::plain::samples::{early_refused, outside, random_key, random_model, random_payload, EARLY};
use mdeh_tests::random::Random;

const SEED: u64 = 0x6d64_6568_2d30_3035;

#[test]
fn keys_of_random_stores() {
    let mut count = Comparisons::default();
    let mut random = Random::new(SEED);
    for _ in 0..1000 {
        let model = random_model(&mut random);
        let store = LentStore::of(&mut random, &model);
        for _ in 0..100 {
            let key = random_key(&mut random, &model);
            count.same(store.lookup(key), model.lookup(key), format_args!("{model:?}, {key:?}"));
        }
    }
    count.end(1000 * 100);
}

#[test]
fn every_key_of_a_large_store() {
    let mut count = Comparisons::default();
    let mut random = Random::new(SEED);
    for (widths, signs) in [(&[8, 8, 10][..], 0b100), (&[16], 1), (&[3, 4, 5, 2], 0), (&[16; 4], 0b1010)] {
        let mut model = Model::new(Shape { signs, ..Shape::new(widths, 8) }, 4096, 12);
        while model.records.len() < 3000 {
            let bits: Vec<bool> = (0..widths.iter().sum()).map(|_| random.below(2) == 1).collect();
            let record = model.record(model.key_of(&bits), random_payload(&mut random));
            model.records.push(record);
        }
        model.records.sort_by(|r, s| r.bits.cmp(&s.bits));
        model.records.dedup_by(|r, s| r.bits == s.bits);
        assert!(model.holds());
        let store = LentStore::of(&mut random, &model);
        for i in 0..500 {
            let record = &model.records[i * model.records.len() / 500];
            let about = format_args!("{record:?}");
            let expected = Ok((record.payload, 1, model.depth(record.key)));
            count.same(store.lookup(record.key), expected, about);
            let key = random_key(&mut random, &model);
            count.same(store.lookup(key), model.lookup(key), format_args!("{key:?}"));
        }
    }
    count.end(4 * 1000);
}

#[test]
fn pages_of_other_leaves_overwritten() {
    let mut count = Comparisons::default();
    let mut random = Random::new(SEED);
    for _ in 0..1000 {
        let model = random_model(&mut random);
        let laid = Laid::new(&mut random, &model);
        for _ in 0..10 {
            let key = random_key(&mut random, &model);
            let bits = model.split_bits(key);
            let read = laid.leaves.iter().find(|placed| bits.starts_with(&placed.leaf.bits)).unwrap().page;
            let mut image = laid.image.clone();
            for g in (0..model.page_limit).filter(|&g| Some(g) != read) {
                let bytes = random.bytes(image.page(g).len());
                image.page(g).copy_from_slice(&bytes);
            }
            let store = LentStore::new(&mut random, &image);
            count.same(store.lookup(key), model.lookup(key), format_args!("{model:?}, {key:?}"));
        }
    }
    count.end(1000 * 10);
}

// ---- refused calls

#[test]
fn values_out_of_range_are_refused_with_3() {
    let mut count = Comparisons::default();
    let mut random = Random::new(SEED);
    for _ in 0..500 {
        let model = random_model(&mut random);
        let store = LentStore::of(&mut random, &model);
        for j in 0..4 {
            for value in outside(model.shape, j) {
                let mut key = random_key(&mut random, &model);
                key[j] = value;
                let about = format_args!("{:?}, {key:?}", model.shape);
                count.same(model.lookup(key), Err(refusal(3)), about);
                count.same(store.lookup(key), Err(refusal(3)), about);
            }
        }
    }
    count.end(500 * 4 * 8 * 2);
}

#[test]
fn refusals_1_14_15_and_2_come_before_3() {
    let mut count = Comparisons::default();
    let mut random = Random::new(SEED);
    for _ in 0..200 {
        let model = random_model(&mut random);
        let laid = Laid::new(&mut random, &model);
        let bad_key = [i32::MIN; 4];
        for (image, refused) in early_refused(&laid.image, &model) {
            let store = LentStore::new(&mut random, &image);
            for key in [random_key(&mut random, &model), bad_key] {
                count.same(store.lookup(key), Err(refused), format_args!("{:?}", image.state));
            }
        }
    }
    count.end(200 * EARLY * 2);
}

// ---- damage that a lookup meets

/// Compares the lookups of a leaf's keys, and of others in it, with 9.
fn all_damaged(count: &mut Comparisons, random: &mut Random, model: &Model, bits: &[bool], image: &Image) {
    let store = LentStore::new(random, image);
    for _ in 0..5 {
        let mut all = model.split_bits(random_key(random, model));
        all[..bits.len()].copy_from_slice(bits);
        let key = model.key_of(&all);
        let about = format_args!("{:?}, {key:?} in leaf {bits:?}", image.state);
        count.same(store.lookup(key), Err(refusal(9)), about);
    }
}

#[test]
fn a_damaged_word_gives_9() {
    let mut count = Comparisons::default();
    each_damaged_word(SEED, |random, model, placed, image| {
        all_damaged(&mut count, random, model, &placed.leaf.bits, image);
    });
    count.end(DAMAGED_WORDS * 5);
}

#[test]
fn a_damaged_count_gives_9() {
    let mut count = Comparisons::default();
    each_damaged_count(SEED, |random, model, placed, image| {
        all_damaged(&mut count, random, model, &placed.leaf.bits, image);
    });
    count.end(DAMAGED_COUNTS * 5);
}
