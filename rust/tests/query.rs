//! The call query on sound stores and on what it meets of unsound ones, compared with a list scanned in full.
use mdeh_tests::compare::Comparisons;
use mdeh_tests::lent::{lend_bytes, LentStore};
use mdeh_tests::plain::image::{Image, Laid, Placed};
use mdeh_tests::plain::met::{each_damaged_count, each_damaged_word, each_shallow_word};
use mdeh_tests::plain::met::{DAMAGED_COUNTS, DAMAGED_WORDS, SHALLOW_WORDS};
use mdeh_tests::plain::model::Model;
use mdeh_tests::plain::refusal::refusal;
use mdeh_tests::plain::samples::{early_refused, outside, query_of, random_key, random_model, EARLY};
use mdeh_tests::random::Random;

const SEED: u64 = 0x6d64_6568_2d30_3036;

/// Compares answer and output of a query, with an output of so many random bytes between guards.
fn compare(
    count: &mut Comparisons,
    random: &mut Random,
    model: &Model,
    store: &LentStore,
    query: [Option<i32>; 4],
    bytes: usize,
) {
    let mut expected = random.bytes(bytes);
    let mut out = lend_bytes(random, &expected);
    let answer = store.query(query, &mut out);
    let about = format_args!("{:?}, {query:?}, {bytes} bytes", model.shape);
    count.same(answer, model.query(query, &mut expected), about);
    count.same(out.slice() == expected, true, about);
}

/// A random query of the shape's attributes.
fn random_query(random: &mut Random, model: &Model) -> [Option<i32>; 4] {
    let subset = random.below(1 << model.widths().len());
    query_of(subset, random_key(random, model))
}

/// How many bytes a query's output takes.
fn output_size(model: &Model, query: [Option<i32>; 4]) -> usize {
    12 * model.records.iter().filter(|record| record.matches(query)).count()
}

#[test]
fn every_subset_of_given_attributes() {
    let mut count = Comparisons::default();
    let mut random = Random::new(SEED);
    let mut subsets = 0;
    for _ in 0..1000 {
        let model = random_model(&mut random);
        let store = LentStore::of(&mut random, &model);
        for subset in 0..1 << model.widths().len() {
            subsets += 1;
            for _ in 0..4 {
                let query = query_of(subset, random_key(&mut random, &model));
                let bytes = random.below(output_size(&model, query) + 30);
                compare(&mut count, &mut random, &model, &store, query, bytes);
            }
        }
    }
    count.end(subsets * 4 * 2);
}

#[test]
fn outputs_of_every_length() {
    let mut count = Comparisons::default();
    let mut random = Random::new(SEED);
    let mut lengths = 0;
    for _ in 0..200 {
        let model = random_model(&mut random);
        let store = LentStore::of(&mut random, &model);
        let query = random_query(&mut random, &model);
        let most = output_size(&model, query).min(40 * 12) + 25;
        for bytes in 0..=most {
            lengths += 1;
            compare(&mut count, &mut random, &model, &store, query, bytes);
        }
    }
    count.end(lengths * 2);
}

#[test]
fn pages_not_read_overwritten() {
    let mut count = Comparisons::default();
    let mut random = Random::new(SEED);
    for _ in 0..1000 {
        let model = random_model(&mut random);
        let laid = Laid::new(&mut random, &model);
        for _ in 0..6 {
            let query = random_query(&mut random, &model);
            let agreeing = model.agreeing(query);
            let read: Vec<usize> = laid
                .leaves
                .iter()
                .filter(|placed| agreeing.contains(&placed.leaf))
                .filter_map(|placed| placed.page)
                .collect();
            let mut image = laid.image.clone();
            for g in (0..model.page_limit).filter(|g| !read.contains(g)) {
                let bytes = random.bytes(image.page(g).len());
                image.page(g).copy_from_slice(&bytes);
            }
            let store = LentStore::new(&mut random, &image);
            let bytes = random.below(output_size(&model, query) + 30);
            compare(&mut count, &mut random, &model, &store, query, bytes);
        }
    }
    count.end(1000 * 6 * 2);
}

// ---- refused calls

#[test]
fn refusal_8_comes_before_3() {
    let mut count = Comparisons::default();
    let mut random = Random::new(SEED);
    for _ in 0..300 {
        let model = random_model(&mut random);
        let store = LentStore::of(&mut random, &model);
        for j in 0..4 {
            for value in [&[0][..], &outside(model.shape, j)].concat() {
                let mut query = random_query(&mut random, &model);
                query[j] = Some(value);
                compare(&mut count, &mut random, &model, &store, query, 30);
                // a number out of bounds in every attribute of the shape
                let query = query.map(|wanted| wanted.map(|_| [i32::MIN, i32::MAX][random.below(2)]));
                compare(&mut count, &mut random, &model, &store, query, 30);
            }
        }
    }
    count.end(300 * 4 * 9 * 2 * 2);
}

#[test]
fn refusals_1_14_15_and_2_come_before_8_and_3() {
    let mut count = Comparisons::default();
    let mut random = Random::new(SEED);
    for _ in 0..300 {
        let model = random_model(&mut random);
        let laid = Laid::new(&mut random, &model);
        for (image, refused) in early_refused(&laid.image, &model) {
            let store = LentStore::new(&mut random, &image);
            for query in [[None; 4], [Some(0); 4], [Some(i32::MIN); 4], random_query(&mut random, &model)] {
                let content = random.bytes(60);
                let mut out = lend_bytes(&mut random, &content);
                let about = format_args!("{:?}, {query:?}", image.state);
                count.same(store.query(query, &mut out), Err(refused), about);
                count.same(out.unchanged(), true, about);
            }
        }
    }
    count.end(300 * EARLY * 4 * 2);
}

// ---- damage that a query meets

/// Compares the queries that agree with a leaf's string with 9, the output as it came.
fn all_damaged(count: &mut Comparisons, random: &mut Random, model: &Model, leaf: &Placed, image: &Image) {
    let store = LentStore::new(random, image);
    for subset in [0, random.below(1 << model.widths().len()), (1 << model.widths().len()) - 1] {
        let mut bits = model.split_bits(random_key(random, model));
        bits[..leaf.leaf.depth()].copy_from_slice(&leaf.leaf.bits);
        let query = query_of(subset, model.key_of(&bits));
        let content = random.bytes(100);
        let mut out = lend_bytes(random, &content);
        let about = format_args!("{:?}, {query:?}, leaf {:?}", image.state, leaf.leaf.bits);
        count.same(store.query(query, &mut out), Err(refusal(9)), about);
        count.same(out.unchanged(), true, about);
    }
}

#[test]
fn a_damaged_word_gives_9() {
    let mut count = Comparisons::default();
    each_damaged_word(SEED, |random, model, placed, image| {
        all_damaged(&mut count, random, model, placed, image);
    });
    count.end(DAMAGED_WORDS * 3 * 2);
}

#[test]
fn a_depth_below_the_region_gives_9() {
    let mut count = Comparisons::default();
    each_shallow_word(SEED, |random, model, placed, image| {
        all_damaged(&mut count, random, model, placed, image);
    });
    count.end(SHALLOW_WORDS * 3 * 2);
}

#[test]
fn a_damaged_count_gives_9() {
    let mut count = Comparisons::default();
    each_damaged_count(SEED, |random, model, placed, image| {
        all_damaged(&mut count, random, model, placed, image);
    });
    count.end(DAMAGED_COUNTS * 3 * 2);
}
