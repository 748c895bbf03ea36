//! Inserts with payload 0: "11, payload 0 on insert, after 3 and before 4" (document 02, request 2), on any store. With
//! each number every slice and every guard is as it came (`LentStore` compares them).
use mdeh_tests::compare::Comparisons;
use mdeh_tests::followed::{Followed, COMPARED};
use mdeh_tests::host::Shape;
use mdeh_tests::lent::LentStore;
use mdeh_tests::plain::image::{Image, Laid, STATE};
use mdeh_tests::plain::judge::early_refusal;
use mdeh_tests::plain::met::{each_damaged_count, each_damaged_word, DAMAGED_COUNTS, DAMAGED_WORDS};
use mdeh_tests::plain::model::Model;
use mdeh_tests::plain::refusal::{bad_width, insert_refused, page_size, refusal};
use mdeh_tests::plain::samples::{given_payload, random_key, random_model};
use mdeh_tests::plain::unsound;
use mdeh_tests::random::Random;

const SEED: u64 = 0x6d64_6568_2d30_3139;

// ---- the order of an insert's numbers

/// The numbers in the order in which they are found.
const ORDER: [u32; 9] = [1, 14, 15, 2, 3, 11, 4, 6, 7];

/// Which of 4, 6 and 7 hold together. 7 does not hold for a stored key, which adds nothing to the set.
const SITUATIONS: [[bool; 3]; 6] = [
    [false, false, false],
    [true, false, false],
    [false, true, false],
    [true, true, false],
    [false, false, true],
    [false, true, true],
];

/// The stores of each situation, and how often each combination with the other conditions is made of one.
const STORES: usize = 60;
const TURNS: usize = 2;

/// Whether the key is stored, whether "b stored keys share their first L split bits with it", and whether "the new set
/// has more than P non-empty leaves".
fn situation(model: &Model, key: [i32; 4]) -> [bool; 3] {
    let new = model.record(key, 1);
    let stored = model.records.iter().any(|record| record.key == key);
    let first = &new.bits[..model.depth_limit];
    let sharing = model.records.iter().filter(|record| record.bits.starts_with(first)).count();
    let mut after = model.clone();
    after.records.retain(|record| record.key != key);
    after.records.push(new);
    let pages = after.leaves().iter().filter(|leaf| !leaf.records.is_empty()).count();
    [stored, sharing >= model.shape.capacity as usize, pages > model.page_limit]
}

/// A number of attributes, a width or a capacity out of bounds.
fn out_of_bounds(random: &mut Random) -> u32 {
    [0, 17, 257, u32::MAX][random.below(4)]
}

/// The chosen of a count out of bounds, which may be too few state words, some widths and the capacity. Returns the
/// lowest attribute with such a width.
fn break_shape(random: &mut Random, model: &Model, image: &mut Image, chosen: [bool; 3]) -> u32 {
    let [attributes, widths, capacity] = chosen;
    let j = random.below(model.widths().len());
    if widths {
        image.state[1 + j] = out_of_bounds(random);
        for other in j + 1..4 {
            image.state[1 + other] = [image.state[1 + other], out_of_bounds(random)][random.below(2)];
        }
    }
    if capacity {
        image.state[5] = out_of_bounds(random);
    }
    if attributes {
        match random.below(2) {
            0 => image.state[0] = [5, out_of_bounds(random)][random.below(2)],
            _ => image.state.truncate(random.below(STATE)),
        }
    }
    j as u32
}

/// Fewer than 2^L words, fewer than P pages, or both.
fn shorten(random: &mut Random, model: &Model, image: &mut Image) {
    let (words, bytes) = (1 << model.depth_limit, model.page_limit * page_size(model.shape));
    let which = random.below(3);
    if which != 0 {
        image.dir.truncate([words - 1, random.below(words)][random.below(2)]);
    }
    if which != 1 {
        image.pages.truncate([bytes - 1, random.below(bytes)][random.below(2)]);
    }
}

/// A payload other than 0; of most of them some bytes are 0.
fn edge_payload(random: &mut Random) -> u32 {
    [1, 1 << 8, 1 << 16, 1 << 24, u32::MAX, given_payload(random)][random.below(6)]
}

/// A store, a key and a payload for which the chosen of 1, 14, 15, 2, 3 and 11 hold, and the attribute that 14 names. A
/// number out of bounds keeps its lowest bits.
fn spoiled(
    random: &mut Random,
    model: &Model,
    image: &Image,
    mut key: [i32; 4],
    early: [bool; 6],
) -> (Image, [i32; 4], u32, u32) {
    let [attributes, widths, capacity, memory, value, zero] = early;
    let mut image = image.clone();
    let attribute = break_shape(random, model, &mut image, [attributes, widths, capacity]);
    if memory {
        shorten(random, model, &mut image);
    }
    if value {
        let j = random.below(4);
        key[j] ^= 1 << random.between(model.shape.widths[j].into(), 31);
    }
    (image, key, if zero { 0 } else { edge_payload(random) }, attribute)
}

/// Each combination of 1, 14, 15, 2, 3 and 11 with a situation: the answer, and the model's where the first four do not
/// hold. An accepted record is looked up. Returns the numbers, 0 where the record is accepted.
fn each_combination(
    count: &mut Comparisons,
    random: &mut Random,
    model: &Model,
    key: [i32; 4],
    late: [bool; 3],
) -> Vec<u32> {
    let laid = Laid::new(random, model);
    let mut numbers = vec![];
    for turn in 0..64 * TURNS {
        let early = [0, 1, 2, 3, 4, 5].map(|condition| turn >> condition & 1 == 1);
        let holds = [&early[..], &late].concat();
        let first = ORDER.into_iter().zip(&holds).find(|(_, &holds)| holds);
        let (image, key, payload, attribute) = spoiled(random, model, &laid.image, key, early);
        let mut after = model.clone();
        let answer = after.insert(key, payload);
        let expected = match first {
            None => Ok(after.depth(key)),
            Some((14, _)) => Err(bad_width(attribute)),
            Some((number, _)) => Err(refusal(number)),
        };
        let mut store = LentStore::new(random, &image);
        let found = store.insert(key, payload);
        let about = format_args!("{holds:?}: {key:?}, {payload}, state {:?}, {model:?}", image.state);
        count.same(found, expected, about);
        if early[..4] == [false; 4] {
            count.same(answer, expected, about);
        }
        if found.is_ok() {
            count.same(store.lookup(key), Ok((payload, 1, after.depth(key))), about);
        }
        numbers.push(found.map_or_else(|refused| refused.number, |_| 0));
    }
    numbers
}

/// Every combination of the nine conditions that a store, a key and a payload can have.
#[test]
fn the_first_of_all_numbers_that_hold() {
    let mut count = Comparisons::default();
    let mut random = Random::new(SEED);
    let mut made = [0; SITUATIONS.len()];
    let mut met = [0; 16];
    while made != [STORES; SITUATIONS.len()] {
        let model = random_model(&mut random);
        let key = random_key(&mut random, &model);
        let late = situation(&model, key);
        let place = SITUATIONS.iter().position(|&other| other == late).expect("there is no other");
        if made[place] < STORES {
            made[place] += 1;
            let numbers = each_combination(&mut count, &mut random, &model, key, late);
            numbers.iter().for_each(|&number| met[number as usize] += 1);
        }
    }
    println!("answers by number: {met:?}");
    // of the combinations, 32 in 64 have 1, 16 have 14 first, 8 have 15, 4 have 2, 2 have 3, 1 has 11, and 1 is left to
    // the situation
    let each = STORES * TURNS;
    assert_eq!(met, [1, 192, 24, 12, 2, 0, 2, 1, 0, 0, 0, 6, 0, 0, 96, 48].map(|share| share * each));
    count.end(((64 + 4) * SITUATIONS.len() * each + each) as u64);
}

// ---- any store

/// How often payload 0 is inserted into a store.
const INSERTS: u64 = 4;

/// Inserts payload 0 for keys near those of a model, one in eight with a bit changed: 1, 14, 15, 2, 3 or 11,
/// whatever words and pages hold. Returns how many are refused with 11.
fn refused(count: &mut Comparisons, random: &mut Random, model: &Model, image: &Image) -> u64 {
    let mut store = LentStore::new(random, image);
    let mut elevens = 0;
    for _ in 0..INSERTS {
        let mut key = random_key(random, model);
        if random.below(8) == 0 {
            key[random.below(4)] ^= 1 << random.below(32);
        }
        let refused = early_refusal(image).or_else(|| insert_refused(image.shape(), key, 0));
        let about = format_args!("{key:?}: {model:?}, state {:?}", image.state);
        count.same(store.insert(key, 0).err(), refused, about);
        elevens += u64::from(refused == Some(refusal(11)));
    }
    elevens
}

#[test]
fn unsound_stores_and_random_memory() {
    let mut count = Comparisons::default();
    let mut random = Random::new(SEED);
    let mut elevens = 0;
    let mut each = |random: &mut Random, model: &Model, image: &Image| {
        elevens += refused(&mut count, random, model, image);
    };
    unsound::clause_broken(&mut random, 60, &mut each);
    unsound::clauses_broken(&mut random, 1000, &mut each);
    unsound::random_memory(&mut random, 1500, 0x000f_003f, &mut each);
    unsound::random_states(&mut random, 1500, &mut each);
    unsound::wild_limits(&mut random, &mut each);
    println!("{elevens} refused with 11");
    assert!(elevens > 10_000);
    count.end((25 * 60 + 1000 + 1500 + 1500 + unsound::WILD) * INSERTS);
}

/// Keys of a leaf whose damage an insert of any other payload meets, and answers with 9.
fn eleven_before_nine(
    count: &mut Comparisons,
    random: &mut Random,
    model: &Model,
    leaf: &[bool],
    image: &Image,
) {
    let mut bits = model.split_bits(random_key(random, model));
    bits[..leaf.len()].copy_from_slice(leaf);
    let key = model.key_of(&bits);
    let mut store = LentStore::new(random, image);
    for (payload, number) in [(0, 11), (edge_payload(random), 9)] {
        let about = format_args!("{key:?}, {payload}, in leaf {leaf:?}: state {:?}", image.state);
        count.same(store.insert(key, payload), Err(refusal(number)), about);
    }
}

#[test]
fn a_damaged_word_is_not_looked_at() {
    let mut count = Comparisons::default();
    each_damaged_word(SEED, |random, model, placed, image| {
        eleven_before_nine(&mut count, random, model, &placed.leaf.bits, image);
    });
    count.end(DAMAGED_WORDS * 2);
}

#[test]
fn a_damaged_count_is_not_looked_at() {
    let mut count = Comparisons::default();
    each_damaged_count(SEED, |random, model, placed, image| {
        eleven_before_nine(&mut count, random, model, &placed.leaf.bits, image);
    });
    count.end(DAMAGED_COUNTS * 2);
}

// ---- other payloads

/// Each bit alone, each bit left out, and all: no part of a payload stands for the whole.
#[test]
fn every_other_payload_is_accepted() {
    let mut count = Comparisons::default();
    let mut random = Random::new(SEED);
    let payloads: Vec<u32> =
        (0..32).flat_map(|bit| [1 << bit, !(1 << bit)]).chain([u32::MAX, 0xffff_0000, 0x00ff_ff00]).collect();
    for capacity in [1, 2, 16] {
        let shape = Shape::new(&[4, 4], capacity).signed(0);
        let mut followed = Followed::fresh(&mut random, shape, 256, 256);
        for (i, &payload) in (0..).zip(&payloads) {
            let key = [i % 16 - 8, i / 16, 0, 0];
            let about = format_args!("b = {capacity}, {payload:#x}");
            let answer = followed.insert(&mut count, key, 0);
            count.same(answer, Err(refusal(11)), about);
            let answer = followed.insert(&mut count, key, payload);
            count.same(answer, Ok(followed.model.depth(key)), about);
            count.same(followed.store.lookup(key), answer.map(|depth| (payload, 1, depth)), about);
        }
    }
    count.end(3 * 67 * (2 * COMPARED + 3));
}
