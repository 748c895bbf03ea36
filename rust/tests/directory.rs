//! The steps on the directory's words: the cell of a key, doubling, the doublings of an insert, setting a region.
//! Compared with strings of split bits and the doubling array.
use mdeh_tests::cells::{Cell, Cells};
use mdeh_tests::compare::Comparisons;
use mdeh_tests::followed::{Followed, COMPARED};
use mdeh_tests::lent::LentStore;
use mdeh_tests::plain::image::{Image, DEPTH, DEPTH_LIMIT, STATE};
use mdeh_tests::plain::leaves::Leaf;
use mdeh_tests::plain::samples::{self, given_payload};
use mdeh_tests::plain::shown::leaves_shown;
use mdeh_tests::probe::{double, fill, find_cell, insert_double, Split, Widths};
use mdeh_tests::random::Random;
use mdeh_tests::reference::{formula, steps};
use mdeh_tests::shapes::{random_shape, random_widths, widths_of_shapes};

const SEED: u64 = 0x6d64_6568_2d30_3032;

/// Words past a directory, which no step changes.
const GUARDS: usize = 7;

/// The greatest depth of a directory of these widths: the smaller of 12 and W.
fn greatest_depth(widths: &[u32]) -> usize {
    widths.iter().sum::<u32>().min(12) as usize
}

/// Widths that the steps accept.
fn fitting(widths: &[u32]) -> Widths {
    Widths::new(widths).expect("no width is above 16")
}

/// A random key. Half of the keys have encodings below 2^w_j; of any other encoding the last w_j bits count.
fn random_key(random: &mut Random, widths: &[u32]) -> [u32; 4] {
    let mut key = [0; 4].map(|_: u32| random.number() as u32);
    if random.between(0, 1) == 0 {
        for j in 0..4 {
            key[j] &= (1 << widths.get(j).unwrap_or(&0)) - 1;
        }
    }
    key
}

// ---- the cell of a key

#[test]
fn cells_of_random_keys_in_directories_of_every_depth() {
    let mut count = Comparisons::default();
    let mut random = Random::new(SEED);
    for widths in widths_of_shapes(&mut random) {
        let cells = Cells::new(&widths, greatest_depth(&widths));
        for t in 0..=greatest_depth(&widths) {
            for _ in 0..100 {
                let key = random_key(&mut random, &widths);
                let expected = cells.address(&cells.split_bits(key)[..t]) as u64;
                let about = format_args!("widths {widths:?}, depth {t}, {key:?}");
                count.same(find_cell(&fitting(&widths), key, t as u64), Some(expected), about);
            }
        }
    }
    // Of the shapes of up to ten bits there are 3,608 depths.
    count.end(100 * (3_608 + 4 * 12 + 212 * 13));
}

#[test]
fn cells_of_random_keys_at_depths_of_up_to_all_bits() {
    let mut count = Comparisons::default();
    let mut random = Random::new(SEED);
    for total in 1..=64 {
        for _ in 0..20 {
            let widths = random_widths(&mut random, total);
            let cells = Cells::new(&widths, 0);
            let steps = steps(&widths);
            for t in 0..=total as usize {
                let key = random_key(&mut random, &widths);
                let index = cells.index_vector(&cells.split_bits(key)[..t]);
                let expected = u64::try_from(formula(&steps, index)).expect("addresses have 64 bits");
                let about = format_args!("widths {widths:?}, depth {t}, {key:?}");
                count.same(find_cell(&fitting(&widths), key, t as u64), Some(expected), about);
            }
        }
    }
    // W + 1 depths of each shape
    count.end(20 * (64 * 65 / 2 + 64));
}

// ---- doubling

#[test]
fn doubling_gives_each_cell_the_word_of_the_cell_that_it_halves() {
    let mut count = Comparisons::default();
    let mut random = Random::new(SEED);
    for widths in widths_of_shapes(&mut random) {
        let cells = Cells::new(&widths, greatest_depth(&widths));
        for t in 0..greatest_depth(&widths) {
            let before = random.words((2 << t) + GUARDS);
            let mut after = before.clone();
            double(&fitting(&widths), t as u64, &mut after).expect("the directory fits");
            for Cell { bits, address } in cells.all(t + 1) {
                let whole = cells.address(&bits[..t]);
                let about = format_args!("widths {widths:?}, depth {t}, cell {address}");
                count.same(after[address], before[whole], about);
            }
            for a in (0..1 << t).chain(2 << t..before.len()) {
                count.same(after[a], before[a], format_args!("widths {widths:?}, depth {t}, word {a}"));
            }
        }
    }
    // 2^(t+1) cells, 2^t words and 7 guards at each depth t below the greatest. Of the shapes of up to ten
    // bits there are 3,223 such depths, with 204,425 words.
    let small = 3 * 204_425 + 7 * 3_223;
    count.end(small + 4 * (3 * 2_047 + 7 * 11) + 212 * (3 * 4_095 + 7 * 12));
}

// ---- the doublings of an insert

/// What stands in a split that doubling does not look at is random.
fn split_at(random: &mut Random, step: usize) -> Split {
    let [page, depth] = [0; 2].map(|_: u32| random.number() as u32);
    Split { page, depth, behind: random.number() as usize, pair: random.number(), step: step as u64 }
}

/// Calls by the number of times that they double the directory: not at all, once, more often.
type Doublings = [u64; 3];

/// The comparisons of a call that doubles for new leaves.
const DOUBLED: u64 = 3;

/// Doubles a store's directory for the new leaves that a step divides, and compares: T is the greater of T and the
/// step's number plus one, and the rest of the state stays; each cell has the word of the cell of its first T bits; the
/// words past 2^T, the pages and all guards stay. `all` has the cells of each depth. Returns the store after it.
#[track_caller]
fn compare_insert_double(
    count: &mut Comparisons,
    doublings: &mut Doublings,
    random: &mut Random,
    (cells, all): (&Cells, &[Vec<Cell>]),
    before: &Image,
    step: usize,
) -> Image {
    let split = split_at(random, step);
    let mut store = LentStore::new(random, before);
    insert_double(store.state.slice_mut(), store.dir.slice_mut(), split).expect("the directory fits");
    let after = store.image();
    let old = before.state[DEPTH] as usize;
    let new = old.max(step + 1);
    doublings[(new - old).min(2)] += 1;
    let about = format_args!("state {:?}, {split:?}", before.state);
    let mut state = before.state.clone();
    state[DEPTH] = new as u32;
    count.same(&after.state, &state, about);
    let wrong = all[new].iter().find(|Cell { bits, address }| {
        let whole = cells.address(&bits[..old]);
        after.dir[*address] != before.dir[whole]
    });
    count.same(wrong.map(|cell| cell.address), None, about);
    let kept =
        [store.state.unchanged_from(STATE), store.dir.unchanged_from(1 << new), store.pages.unchanged()];
    count.same(kept, [true; 3], about);
    after
}

/// The cells of directories of each depth up to a greatest.
fn cells_of_depths(cells: &Cells, greatest: usize) -> Vec<Vec<Cell>> {
    (0..=greatest).map(|t| cells.all(t)).collect()
}

#[test]
fn insert_doubles_random_words_until_the_new_leaves_fit() {
    let mut count = Comparisons::default();
    let mut doublings = Doublings::default();
    let mut random = Random::new(SEED);
    for widths in widths_of_shapes(&mut random) {
        let limit = greatest_depth(&widths);
        let cells = Cells::new(&widths, limit);
        let all = cells_of_depths(&cells, limit);
        for (t, step) in (0..=limit).flat_map(|t| (0..limit).map(move |step| (t, step))) {
            // any P, any tally, any widths past d, any marks
            let mut state = random.words(STATE);
            state[0] = widths.len() as u32;
            state[1..=widths.len()].copy_from_slice(&widths);
            state[5] = random.between(1, 16) as u32;
            (state[DEPTH_LIMIT], state[DEPTH]) = (limit as u32, t as u32);
            let image =
                Image { state, dir: random.words((1 << limit) + GUARDS), pages: random.bytes(GUARDS) };
            compare_insert_double(&mut count, &mut doublings, &mut random, (&cells, &all), &image, step);
        }
    }
    println!("{doublings:?} calls with no doubling, one, more");
    assert!(doublings.iter().all(|&calls| calls > 1000));
    // L (L + 1) pairs of T and step. Of the shapes of up to ten bits there are 31,394.
    count.end(DOUBLED * (31_394 + 4 * 11 * 12 + 212 * 12 * 13));
}

#[test]
fn stores_show_the_same_leaves_after_the_doublings_of_an_insert() {
    let mut count = Comparisons::default();
    let mut doublings = Doublings::default();
    let mut random = Random::new(SEED);
    let (mut inserts, mut stores) = (0, 0);
    for _ in 0..60 {
        let shape = random_shape(&mut random, 16, 4);
        let (words, pages) = (1 + random.below(600), 1 + random.below(40));
        let mut followed = Followed::fresh(&mut random, shape, words, pages);
        let limit = followed.model.depth_limit;
        let cells = Cells::new(followed.model.widths(), limit);
        let all = cells_of_depths(&cells, limit);
        for _ in 0..30 {
            inserts += 1;
            let key = samples::random_key(&mut random, &followed.model);
            if followed.insert(&mut count, key, given_payload(&mut random)).is_err() {
                continue;
            }
            stores += 1;
            let before = followed.store.image();
            let shown = leaves_shown(&before, &followed.model, &cells);
            let leaves: Vec<Leaf> = shown.iter().flatten().map(|(leaf, _)| leaf.clone()).collect();
            count.same(leaves, followed.model.leaves(), format_args!("{:?}", followed.model));
            for step in 0..limit {
                let cells = (&cells, &all[..]);
                let after =
                    compare_insert_double(&mut count, &mut doublings, &mut random, cells, &before, step);
                let about = format_args!("step {step}, {:?}", followed.model);
                count.same(&leaves_shown(&after, &followed.model, cells.0), &shown, about);
            }
        }
    }
    println!("{stores} stores, {doublings:?} calls with no doubling, one, more");
    assert!(doublings.iter().all(|&calls| calls > 500));
    count.end(inserts * COMPARED + stores + doublings.iter().sum::<u64>() * (DOUBLED + 1));
}

// ---- setting a region

#[test]
fn setting_a_region_changes_its_cells_and_no_other_word() {
    let mut count = Comparisons::default();
    let mut random = Random::new(SEED);
    for widths in widths_of_shapes(&mut random) {
        let cells = Cells::new(&widths, greatest_depth(&widths));
        for t in 0..=greatest_depth(&widths) {
            let all = cells.all(t);
            for x in 0..=t {
                let key = random_key(&mut random, &widths);
                let region = &cells.split_bits(key)[..x];
                let word = random.number() as u32;
                let before = random.words((1 << t) + GUARDS);
                let mut after = before.clone();
                fill(&fitting(&widths), key, x as u64, t as u64, word, &mut after)
                    .expect("the directory fits");
                for Cell { bits, address } in &all {
                    let expected = if bits.starts_with(region) { word } else { before[*address] };
                    let about =
                        format_args!("widths {widths:?}, depth {t}, {x} bits of {key:?}, cell {address}");
                    count.same(after[*address], expected, about);
                }
                for a in 1 << t..before.len() {
                    let about = format_args!("widths {widths:?}, depth {t}, {x} bits of {key:?}, word {a}");
                    count.same(after[a], before[a], about);
                }
            }
        }
    }
    // 2^t cells and 7 guards for each region depth of each directory depth t. Of the shapes of up to ten bits
    // there are 19,305 such pairs of depths, with 3,883,301 cells.
    let small = 3_883_301 + 7 * 19_305;
    count.end(small + 4 * (45_057 + 7 * 78) + 212 * (98_305 + 7 * 91));
}

// ---- unused attributes, and what is not accepted

#[test]
fn unused_attributes_between_others_are_passed_over() {
    let mut count = Comparisons::default();
    let mut random = Random::new(SEED);
    for used in 1u32..1 << 4 {
        let places: Vec<usize> = (0..4).filter(|j| used & (1 << j) != 0).collect();
        let widths = fitting(&[0, 1, 2, 3].map(|j| if places.contains(&j) { 3 } else { 0 }));
        let closed_up = fitting(&vec![3; places.len()]);
        for t in 0..3 * places.len() as u64 {
            for x in 0..=t {
                let key = [0; 4].map(|_: u32| random.number() as u32);
                let mut closed_key = [0; 4];
                for (j, &place) in places.iter().enumerate() {
                    closed_key[j] = key[place];
                }
                let word = random.number() as u32;
                let words = random.words(2 << t);
                let steps = |widths, key| {
                    let mut dir = words.clone();
                    fill(widths, key, x, t, word, &mut dir).expect("the directory fits");
                    double(widths, t, &mut dir).expect("the directory fits");
                    (find_cell(widths, key, t).expect("the depth fits"), dir)
                };
                let about = format_args!("attributes {places:?}, depth {t}, {x} bits of {key:?}");
                count.same(steps(&widths, key), steps(&closed_up, closed_key), about);
            }
        }
    }
    // pairs of depths, by the number of attributes in use
    count.end(4 * 6 + 6 * 21 + 4 * 45 + 78);
}

#[test]
fn what_a_step_does_not_accept_is_not_called() {
    let mut count = Comparisons::default();
    for widths in [&[17][..], &[2, 2, 2, 17], &[u32::MAX], &[1; 5]] {
        count.same(Widths::new(widths).is_none(), true, format_args!("widths {widths:?}"));
    }
    for widths in [&[3][..], &[2, 2], &[16; 4]] {
        let fit = fitting(widths);
        let total = u64::from(widths.iter().sum::<u32>());
        for t in [total + 1, total + (1 << 32), u64::MAX] {
            count.same(find_cell(&fit, [0; 4], t), None, format_args!("widths {widths:?}, depth {t}"));
        }
        let greatest = total.min(12);
        for (words, t, doubled, filled) in [
            (8192, greatest, None, Some(())),
            (8192, greatest + 1, None, None),
            (8192, 1 << 32, None, None),
            (8192, u64::MAX, None, None),
            (1 << greatest, greatest - 1, Some(()), Some(())),
            ((1 << greatest) - 1, greatest - 1, None, Some(())),
            ((1 << greatest) - 1, greatest, None, None),
            (0, 0, None, None),
        ] {
            let about = format_args!("widths {widths:?}, depth {t}, {words} words");
            let mut dir = vec![5; words];
            count.same(double(&fit, t, &mut dir), doubled, about);
            count.same(fill(&fit, [0; 4], t.saturating_add(1), t, 6, &mut dir), None, about);
            count.same(dir.iter().all(|&word| word == 5), true, about);
            count.same(fill(&fit, [0; 4], t, t, 6, &mut dir), filled, about);
            count.same(dir.contains(&6), filled.is_some(), about);
        }
    }
    // state words, directory words, then d, b, L, T and the step, of widths 5 and 3
    for (words, size, attributes, capacity, limit, t, step, doubled) in [
        (STATE, 256, 2, 1, 8, 0, 7, Some(())),
        (STATE, 256, 2, 1, 8, 8, 7, Some(())),
        (STATE, 1, 2, 1, 1, 0, 0, None),
        (STATE - 1, 256, 2, 1, 8, 0, 7, None),
        (STATE, 255, 2, 1, 8, 0, 7, None),
        (STATE, 256, 3, 1, 8, 0, 7, None),
        (STATE, 256, 2, 0, 8, 0, 7, None),
        (STATE, 8192, 2, 1, 9, 0, 7, None),
        (STATE, 256, 2, 1, 8, 9, 7, None),
        (STATE, 256, 2, 1, 8, 0, 8, None),
        (STATE, 256, 2, 1, 8, 0, u64::MAX, None),
        (STATE, 256, 2, 1, 0, 0, 0, None),
    ] {
        let mut state = vec![attributes, 5, 3, 0, 0, capacity, 1, limit, t];
        state.resize(words, 0);
        let (mut dir, before) = (vec![5; size], state.clone());
        let split = Split { page: 0, depth: 0, behind: 0, pair: 0, step };
        let about = format_args!("{words} state words, {before:?}, {size} words, step {step}");
        count.same(insert_double(&mut state, &mut dir, split), doubled, about);
        count.same(state == before, doubled.is_none() || t == 8, about);
    }
    count.end(4 + 3 * (3 + 8 * 5) + 12 * 2);
}
