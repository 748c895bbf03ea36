//! Marks of signed attributes (document 02, request 4) where they count for nothing: past d, at unused values, at free
//! attributes, in the address map.
use mdeh_tests::compare::Comparisons;
use mdeh_tests::host::{self, HostQuery, HostRange, Shape};
use mdeh_tests::lent::{lend_bytes, LentStore};
use mdeh_tests::plain::image::{Image, Laid, SIGNS};
use mdeh_tests::plain::refusal::{page_size, refusal};
use mdeh_tests::plain::samples::{
    early_refused, query_of, random_key, random_model, random_payload, range_of, EARLY,
};
use mdeh_tests::random::Random;
use mdeh_tests::shapes::random_widths;

const SEED: u64 = 0x6d64_6568_2d30_3232;

// ---- marks past d

/// "A mark past d is ignored, and Fresh clears it": each bit, and any.
#[test]
fn fresh_clears_marks_past_d() {
    let mut count = Comparisons::default();
    let mut random = Random::new(SEED);
    let mut shapes = 0;
    for d in 1..=4usize {
        let each = (d..32).map(|bit| 1u32 << bit).chain([u32::MAX << d]);
        let any: Vec<u32> = (0..40).map(|_| (random.number() as u32) << d).collect();
        for past in each.chain(any) {
            for used in 0..1 << d {
                shapes += 1;
                let total = random.between(d as u64, 16 * d as u64) as u32;
                let mut widths = random_widths(&mut random, total);
                widths.resize(d, 1);
                let shape = Shape { signs: used, ..Shape::new(&widths, 2) };
                let memory = Image::random(&mut random, 20, 3 * page_size(shape));
                let [found, expected] = [used | past, used]
                    .map(|signs| LentStore::fresh(&mut random, Shape { signs, ..shape }, &memory).image());
                let about = format_args!("{shape:?}, {past:#x}");
                count.same(found.state[SIGNS], used, about);
                count.same(found, expected, about);
            }
        }
    }
    count.end(shapes * 2);
}

/// A state with marks past d: "ignored" by each call, and left as they are.
#[test]
fn marks_past_d_in_a_state_are_ignored() {
    let mut count = Comparisons::default();
    let mut random = Random::new(SEED);
    const TURNS: u64 = 12;
    for turn in 0..600 {
        let mut model = random_model(&mut random);
        let d = model.widths().len();
        model.shape.signs &= (1 << d) - 1;
        let image = Laid::new(&mut random, &model).image;
        let mut other = image.clone();
        other.state[SIGNS] |=
            [1 << (d + turn % (32 - d)), u32::MAX << d, (random.number() as u32) << d][turn % 3];
        let past = other.state[SIGNS];
        let mut stores = [image, other].map(|image| LentStore::new(&mut random, &image));
        for _ in 0..TURNS {
            let keys = [0; 2].map(|_| {
                let mut key = random_key(&mut random, &model);
                if random.below(6) == 0 {
                    key[random.below(4)] = [-1, 1, i32::MIN][random.below(3)];
                }
                key
            });
            let query = query_of(random.below(16), keys[0]);
            let subset = random.below(16);
            let range = range_of(&mut random, &model, subset, keys);
            let payload = random_payload(&mut random);
            let content = random.bytes(100);
            let insert = random.below(2) == 0;
            let [found, expected] = stores.each_mut().map(|store| {
                let mut outs = [0; 2].map(|_| lend_bytes(&mut random, &content));
                let lookup = store.lookup(keys[0]);
                let listed = [store.query(query, &mut outs[0]), store.range(range, &mut outs[1])];
                let change = if insert { store.insert(keys[1], payload) } else { store.delete(keys[1]) };
                (lookup, listed, outs.map(|out| out.slice().to_vec()), change, store.check())
            });
            let about = format_args!("{past:#x}, {keys:?}, {query:?}, {range:?}: {model:?}");
            count.same(&found, &expected, about);
            count.same(found.4, Ok(true), about);
            let [image, mut other] = stores.each_ref().map(|store| store.image());
            count.same(other.state[SIGNS], past, about);
            other.state[SIGNS] = image.state[SIGNS];
            count.same(other, image, about);
        }
    }
    count.end(600 * TURNS * 4);
}

// ---- unused values, and refusals that come first

/// "unused key .. value not 0", whatever the marks.
#[test]
fn unused_values_other_than_0_are_refused() {
    let mut count = Comparisons::default();
    let mut random = Random::new(SEED);
    for d in 1..4 {
        for (j, signs) in (d..4).flat_map(|j| [0, 15, 1 << j, u32::MAX].map(|signs| (j, signs))) {
            let shape = Shape { widths: [4; 4], signs, ..Shape::new(&vec![4; d], 2) };
            let memory = Image::random(&mut random, 16, 4 * page_size(shape));
            let mut store = LentStore::fresh(&mut random, shape, &memory);
            // widths and marks past d too
            store.state.slice_mut()[SIGNS] = signs;
            store.state.slice_mut()[1..5].fill(4);
            store.state.lend_again();
            for number in [-8, -1, 1, 7, 8, i32::MIN, i32::MAX] {
                let mut key = [0; 4];
                key[j] = number;
                let about = format_args!("{shape:?}, {key:?}");
                count.same(store.insert(key, 7), Err(refusal(3)), about);
                count.same(store.lookup(key), Err(refusal(3)), about);
                count.same(store.delete(key), Err(refusal(3)), about);
            }
        }
    }
    count.end((3 + 2 + 1) * 4 * 7 * 3);
}

/// What is amiss in a shape, and memory that is too short, with numbers below 0.
#[test]
fn refusals_1_14_15_and_2_come_first() {
    let mut count = Comparisons::default();
    let mut random = Random::new(SEED);
    for _ in 0..100 {
        let mut model = random_model(&mut random);
        model.shape.signs = u32::MAX;
        model.records.clear();
        let laid = Laid::new(&mut random, &model);
        for (image, refused) in early_refused(&laid.image, &model) {
            let mut store = LentStore::new(&mut random, &image);
            let about = format_args!("{:?}", image.state);
            let mut out = lend_bytes(&mut random, &[5; 20]);
            for key in [[-1; 4], [i32::MIN; 4], [i32::MAX; 4]] {
                count.same(store.lookup(key), Err(refused), about);
                count.same(store.insert(key, 0), Err(refused), about);
                count.same(store.delete(key), Err(refused), about);
                count.same(store.query(key.map(Some), &mut out), Err(refused), about);
                count.same(store.range(key.map(|value| Some((value, -2))), &mut out), Err(refused), about);
            }
            count.same(store.check(), Err(refused), about);
        }
    }
    count.end(100 * EARLY * (3 * 5 + 1));
}

// ---- free attributes

/// The given numbers as they are, and any where an attribute is free.
fn filled(random: &mut Random, given: [u32; 4], numbers: [i32; 4]) -> [i32; 4] {
    let any = [0; 4].map(|_| [i32::MIN, i32::MAX, -1, 1 << 16, random.number() as i32][random.below(5)]);
    [0, 1, 2, 3].map(|j| if given[j] == 0 { any[j] } else { numbers[j] })
}

/// "A value of a free attribute is ignored."
#[test]
fn numbers_of_free_attributes_are_ignored() {
    let mut count = Comparisons::default();
    let mut random = Random::new(SEED);
    let mut subsets = 0;
    for _ in 0..600 {
        let model = random_model(&mut random);
        let Image { state, dir, pages } = &Laid::new(&mut random, &model).image;
        for subset in 0..1 << model.widths().len() {
            subsets += 1;
            let keys = [0; 2].map(|_| random_key(&mut random, &model));
            let query = HostQuery::new(query_of(subset, keys[0]));
            let other = HostQuery { values: filled(&mut random, query.given, query.values), ..query };
            let [found, expected] = [other, query].map(|query| {
                let mut out = [7; 100];
                (host::query_result(state, dir, pages, query, &mut out), out)
            });
            count.same(found, expected, format_args!("{other:?}: {model:?}"));
            let range = HostRange::new(range_of(&mut random, &model, subset, keys));
            let [low, high] = [range.low, range.high].map(|ends| filled(&mut random, range.given, ends));
            let other = HostRange { low, high, ..range };
            let [found, expected] = [other, range].map(|range| {
                let mut out = [7; 100];
                (host::range_result(state, dir, pages, range, &mut out), out)
            });
            count.same(found, expected, format_args!("{other:?}: {model:?}"));
        }
    }
    count.end(subsets * 2);
}

// ---- addresses

/// "not for indices": the address map knows no marks.
#[test]
fn addresses_and_indices_have_no_sign() {
    let mut count = Comparisons::default();
    let mut random = Random::new(SEED);
    for total in 1..=64 {
        for _ in 0..60 {
            let widths = random_widths(&mut random, total);
            let shape = Shape::new(&widths, 1);
            let signs = [1, 15, u32::MAX, random.number() as u32][random.below(4)];
            let marked = Shape { signs, ..shape };
            for _ in 0..20 {
                // up to one bit past the width
                let index = shape.widths.map(|width| random.short(width + 1));
                let about = format_args!("{marked:?}, {index:?}");
                count.same(host::address_result(marked, index), host::address_result(shape, index), about);
                let address = random.short((total + 1).min(64));
                let about = format_args!("{marked:?}, {address}");
                count.same(host::index_result(marked, address), host::index_result(shape, address), about);
            }
        }
    }
    let marked = Shape::new(&[2, 2], 1).signed(0).signed(1);
    for (index, address) in [([0, 0], 0), ([1, 0], 1), ([0, 1], 2), ([3, 1], 7), ([0, 2], 8), ([3, 3], 15)] {
        let index = [index[0], index[1], 0, 0];
        count.same(host::address(marked, index), Ok(address), format_args!("{index:?}"));
        count.same(host::index(marked, address), Ok(index), format_args!("{address}"));
    }
    count.end(64 * 60 * 20 * 2 + 6 * 2);
}
