//! The call Fresh, compared with document 01's words: "sets the count of each of the P pages and word 0 to 0, T = 0, one
//! leaf at depth 0 in the tally"; widths past d are held as 0, and marks past d are cleared (document 02, request 4).
use mdeh_tests::compare::Comparisons;
use mdeh_tests::host::{self, Refused, Shape};
use mdeh_tests::lent::{lend_bytes, lend_words, LentStore};
use mdeh_tests::plain::image::{Image, SIGNS, STATE, TALLY};
use mdeh_tests::plain::model::Model;
use mdeh_tests::plain::refusal::{absent, page_size};
use mdeh_tests::plain::value::bounds;
use mdeh_tests::random::Random;
use mdeh_tests::shapes::{marked, random_widths};

const SEED: u64 = 0x6d64_6568_2d30_3034;

/// What Fresh leaves of a store, or the refusal, with nothing changed.
fn expected(shape: Shape, before: &Image) -> (Result<(), Refused>, Image) {
    let mut after = before.clone();
    // fewer words than a state has are refused where no memory would be
    let [words, bytes] = match before.state.len() < STATE {
        true => [0, 0],
        false => [before.dir.len(), before.pages.len()],
    };
    match Model::fresh(shape, words, bytes) {
        Err(refused) => (Err(refused), after),
        Ok(Model { shape, page_limit, depth_limit, .. }) => {
            after.state[0] = shape.attributes;
            after.state[1..5].copy_from_slice(&shape.widths);
            after.state[5..9].copy_from_slice(&[shape.capacity, page_limit as u32, depth_limit as u32, 0]);
            after.state[TALLY..SIGNS].copy_from_slice(&[1, 0, 0, 0, 0, 0, 0, 0, 0, 0, 0, 0, 0]);
            after.state[SIGNS] = shape.signs;
            after.dir[0] = 0;
            (0..page_limit).for_each(|g| after.set_count(g, 0));
            (Ok(()), after)
        }
    }
}

/// Compares Fresh on random words and bytes of these lengths: answer, state, words, pages, guards.
fn compare(
    count: &mut Comparisons,
    random: &mut Random,
    shape: Shape,
    state: usize,
    words: usize,
    bytes: usize,
) -> Image {
    let before = Image { state: random.words(state), dir: random.words(words), pages: random.bytes(bytes) };
    let mut lent = LentStore::new(random, &before);
    let answer = host::fresh(shape, lent.state.slice_mut(), lent.dir.slice_mut(), lent.pages.slice_mut());
    let after = Image {
        state: lent.state.slice().to_vec(),
        dir: lent.dir.slice().to_vec(),
        pages: lent.pages.slice().to_vec(),
    };
    let about = format_args!("{shape:?}, {state} state words, {words} words, {bytes} bytes");
    let (made, expected) = expected(shape, &before);
    count.same(answer, made, about);
    count.same(after == expected, true, about);
    let guards = lent.state.guards_stay() && lent.dir.guards_stay() && lent.pages.guards_stay();
    count.same(guards, true, about);
    after
}

/// A shape of random widths and marks; of widths past d any number.
fn random_shape(random: &mut Random) -> Shape {
    let total = random.between(1, 64) as u32;
    let widths = random_widths(random, total);
    let capacity = random.between(1, 16) as u32;
    let mut shape = marked(random, Shape::new(&widths, capacity));
    shape.widths[widths.len()..].fill_with(|| random.number() as u32);
    shape
}

#[test]
fn limits_come_from_the_lengths_of_the_slices() {
    let mut count = Comparisons::default();
    let mut random = Random::new(SEED);
    for words in [0, 1, 2, 3, 4, 7, 8, 9, 1023, 1024, 2047, 2048, 4095, 4096, 4097, 8191, 8192, 20_000] {
        for pages in [0, 1, 2, 3, 100] {
            for more in [-1, 0, 1] {
                let shape = random_shape(&mut random);
                let bytes = (pages * page_size(shape)).saturating_add_signed(more);
                let state = STATE + random.below(3);
                compare(&mut count, &mut random, shape, state, words, bytes);
            }
        }
    }
    count.end(18 * 5 * 3 * 3);
}

#[test]
fn more_than_4096_pages_are_left_alone() {
    let mut count = Comparisons::default();
    let mut random = Random::new(SEED);
    for capacity in [1, 2, 16] {
        for pages in [4095, 4096, 4097, 5000] {
            for more in [-1, 0, 1] {
                let shape = Shape { capacity, ..random_shape(&mut random) };
                let bytes = (pages * page_size(shape)).saturating_add_signed(more);
                compare(&mut count, &mut random, shape, STATE, 16, bytes);
            }
        }
    }
    count.end(3 * 4 * 3 * 3);
}

#[test]
fn few_split_bits_limit_the_depth() {
    let mut count = Comparisons::default();
    let mut random = Random::new(SEED);
    for total in 1..=64 {
        for words in [1, 100, 4096, 10_000] {
            let widths = random_widths(&mut random, total);
            let shape = Shape::new(&widths, random.between(1, 16) as u32);
            let after = compare(&mut count, &mut random, shape, STATE, words, 3 * page_size(shape));
            let logarithm = [(1, 0), (100, 6), (4096, 12), (10_000, 13)].iter().find(|&&(n, _)| n == words);
            count.same(after.state[7], total.min(logarithm.unwrap().1).min(12), format_args!("{total} bits"));
        }
    }
    count.end(64 * 4 * 4);
}

#[test]
fn a_fresh_store_is_sound_and_without_records() {
    let mut count = Comparisons::default();
    let mut random = Random::new(SEED);
    for _ in 0..300 {
        let shape = random_shape(&mut random);
        let (words, pages) = (1 + random.below(5000), 1 + random.below(50));
        let after = compare(&mut count, &mut random, shape, STATE, words, pages * page_size(shape));
        let store = LentStore::new(&mut random, &after);
        let out = random.bytes(60);
        let mut out = lend_bytes(&mut random, &out);
        let key = [0, 1, 2, 3].map(|j| bounds(shape, j).1);
        count.same(store.check(), Ok(true), format_args!("{shape:?}"));
        count.same(store.lookup(key), Err(absent(0)), format_args!("{shape:?}"));
        count.same(store.query([None; 4], &mut out), Ok((0, 0, 0)), format_args!("{shape:?}"));
        count.same(out.unchanged(), true, format_args!("{shape:?}"));
    }
    count.end(300 * 7);
}

#[test]
fn a_shape_outside_its_bounds_is_refused_before_2() {
    let mut count = Comparisons::default();
    let mut random = Random::new(SEED);
    let good = Shape { attributes: 3, widths: [2; 4], capacity: 2, signs: 0 };
    let mut shapes: Vec<Shape> =
        [0, 5, 257, 65_538, u32::MAX].map(|attributes| Shape { attributes, ..good }).into();
    shapes.extend([0, 17, 257, 65_538, u32::MAX].map(|capacity| Shape { capacity, ..good }));
    for j in 0..3 {
        for width in [0, 17, 257, 65_538, u32::MAX] {
            let mut shape = good;
            shape.widths[j] = width;
            shapes.push(shape);
        }
    }
    for shape in shapes {
        let shape = marked(&mut random, shape);
        for (state, words, bytes) in
            [(STATE, 16, 500), (0, 16, 500), (STATE, 0, 500), (STATE, 16, 0), (0, 0, 0)]
        {
            compare(&mut count, &mut random, shape, state, words, bytes);
        }
    }
    count.end(25 * 5 * 3);
}

#[test]
fn slices_that_are_too_short_are_refused_with_2() {
    let mut count = Comparisons::default();
    let mut random = Random::new(SEED);
    for _ in 0..20 {
        let shape = random_shape(&mut random);
        let size = page_size(shape);
        for state in 0..STATE {
            compare(&mut count, &mut random, shape, state, 16, 2 * size);
        }
        for (words, bytes) in [(0, 2 * size), (16, 0), (16, 1), (16, size - 1), (0, 0)] {
            compare(&mut count, &mut random, shape, STATE, words, bytes);
        }
    }
    count.end(20 * (STATE as u64 + 5) * 3);
}

/// The state is the same, whatever words and bytes are lent.
#[test]
fn fresh_looks_at_no_content() {
    let mut count = Comparisons::default();
    let mut random = Random::new(SEED);
    for _ in 0..100 {
        let shape = random_shape(&mut random);
        let states = [(); 2].map(|_| {
            let state = random.words(STATE);
            let mut state = lend_words(&mut random, &state);
            let (mut dir, mut pages) = (random.words(40), random.bytes(3 * page_size(shape)));
            let answer = host::fresh(shape, state.slice_mut(), &mut dir, &mut pages);
            (answer, state.slice().to_vec())
        });
        count.same(&states[0], &states[1], format_args!("{shape:?}"));
    }
    count.end(100);
}
