//! Insert and delete where they are refused early, on unsound stores and on random memory: they end, answer 9 where
//! they meet damage that they have to tell, otherwise 9 or what is ordinary for the call; with any number nothing is
//! changed (`LentStore` compares it, and the guards), and with none no word, page or record of another leaf is. A depth
//! is that in the word of the key's cell.
use mdeh_tests::cells::Cells;
use mdeh_tests::compare::Comparisons;
use mdeh_tests::host::Refused;
use mdeh_tests::lent::{record_lost, LentStore};
use mdeh_tests::plain::image::{Image, Laid};
use mdeh_tests::plain::judge::{early_refusal, limits_hold};
use mdeh_tests::plain::kept::Change;
use mdeh_tests::plain::met::{each_damaged_count, each_damaged_word, DAMAGED_COUNTS, DAMAGED_WORDS};
use mdeh_tests::plain::model::Model;
use mdeh_tests::plain::reading::Reading;
use mdeh_tests::plain::refusal::{absent, key_refused, refusal};
use mdeh_tests::plain::samples::{early_refused, outside, random_key, random_model, EARLY};
use mdeh_tests::plain::unsound;
use mdeh_tests::random::Random;

const SEED: u64 = 0x6d64_6568_2d30_3132;

/// A change of a key, and its answer.
type Call = fn(&mut LentStore, [i32; 4]) -> Result<u32, Refused>;

/// An insert and a delete, each by its name.
const CALLS: [(&str, Call); 2] =
    [("insert", |store, key| store.insert(key, 0x1234_5678)), ("delete", |store, key| store.delete(key))];

// ---- 1, 14, 15, 2, 3

#[test]
fn values_out_of_range_are_refused_with_3() {
    let mut count = Comparisons::default();
    let mut random = Random::new(SEED);
    for _ in 0..500 {
        let model = random_model(&mut random);
        let mut store = LentStore::of(&mut random, &model);
        for j in 0..4 {
            for value in outside(model.shape, j) {
                let mut key = random_key(&mut random, &model);
                key[j] = value;
                for (name, call) in CALLS {
                    let about = format_args!("{name}: {:?}, {key:?}", model.shape);
                    count.same(call(&mut store, key), Err(refusal(3)), about);
                }
            }
        }
    }
    count.end(500 * 4 * 8 * 2);
}

#[test]
fn refusals_1_14_15_and_2_come_before_3() {
    let mut count = Comparisons::default();
    let mut random = Random::new(SEED);
    for _ in 0..200 {
        let model = random_model(&mut random);
        let laid = Laid::new(&mut random, &model);
        for (image, refused) in early_refused(&laid.image, &model) {
            let mut store = LentStore::new(&mut random, &image);
            for key in [random_key(&mut random, &model), [i32::MIN; 4]] {
                for (name, call) in CALLS {
                    let about = format_args!("{name}: {:?}", image.state);
                    count.same(call(&mut store, key), Err(refused), about);
                }
            }
        }
    }
    count.end(200 * EARLY * 2 * 2);
}

// ---- damage that a call meets

/// Compares the calls on keys of a leaf with 9.
fn all_damaged(count: &mut Comparisons, random: &mut Random, model: &Model, bits: &[bool], image: &Image) {
    let mut store = LentStore::new(random, image);
    for _ in 0..5 {
        let mut all = model.split_bits(random_key(random, model));
        all[..bits.len()].copy_from_slice(bits);
        let key = model.key_of(&all);
        for (name, call) in CALLS {
            let about = format_args!("{name}: {:?}, {key:?} in leaf {bits:?}", image.state);
            count.same(call(&mut store, key), Err(refusal(9)), about);
        }
    }
}

#[test]
fn a_damaged_word_gives_9() {
    let mut count = Comparisons::default();
    each_damaged_word(SEED, |random, model, placed, image| {
        all_damaged(&mut count, random, model, &placed.leaf.bits, image);
    });
    count.end(DAMAGED_WORDS * 5 * 2);
}

#[test]
fn a_damaged_count_gives_9() {
    let mut count = Comparisons::default();
    each_damaged_count(SEED, |random, model, placed, image| {
        all_damaged(&mut count, random, model, &placed.leaf.bits, image);
    });
    count.end(DAMAGED_COUNTS * 5 * 2);
}

// ---- any store

/// The comparisons of `ordinary_calls`.
const COMPARED: u64 = 8;

/// Some calls on any store, one after the other, with keys near those of a model: refused early as the table says,
/// otherwise accepted, or refused with 9 or another of the call's numbers.
fn ordinary_calls(count: &mut Comparisons, random: &mut Random, model: &Model, image: &Image) {
    let mut store = LentStore::new(random, image);
    let early = early_refusal(image);
    let cells = (early.is_none() && limits_hold(image)).then(|| Cells::of_store(image));
    for turn in 0..COMPARED {
        let key = random_key(random, model);
        let (name, call) = CALLS[random.below(2)];
        let before = store.image();
        let found = call(&mut store, key);
        let value_refused = || key_refused(image.shape(), key).then_some(refusal(3));
        let right = match (early.or_else(value_refused), &cells) {
            (Some(refused), _) => found == Err(refused),
            (None, None) => found == Err(refusal(9)),
            (None, Some(cells)) => is_ordinary(name, key, found, cells, &before, &store.image()),
        };
        let about = format_args!("{name} {key:?}, turn {turn}: {model:?}, state {:?}", image.state);
        count.same((right, found), (true, found), about);
    }
}

/// Whether a change of a key may be answered so after the early numbers and 3, and keeps what is other leaves'.
fn is_ordinary(
    name: &str,
    key: [i32; 4],
    found: Result<u32, Refused>,
    cells: &Cells,
    before: &Image,
    after: &Image,
) -> bool {
    let before = Reading::new(before, cells);
    match (name, found) {
        (_, Err(Refused { number: 9, .. })) => true,
        ("insert", _) if before.insert_told(key) => false,
        ("delete", _) if before.delete_told(key) => false,
        ("insert", Err(Refused { number, .. })) => matches!(number, 4 | 6 | 7),
        (_, Err(refused)) => refused == absent(before.depth_at(key)),
        (_, Ok(depth)) => {
            let bits = before.model.split_bits(key);
            let change = Change { before, after: Reading::new(after, cells), bits };
            let right = depth == change.after.depth_at(key);
            right && change.others_kept().is_ok() && record_lost(&change).is_none()
        }
    }
}

#[test]
fn each_clause_broken_in_turn() {
    let mut count = Comparisons::default();
    let mut random = Random::new(SEED);
    unsound::clause_broken(&mut random, 100, |random, model, image| {
        ordinary_calls(&mut count, random, model, image)
    });
    count.end(25 * 100 * COMPARED);
}

#[test]
fn several_clauses_broken_at_once() {
    let mut count = Comparisons::default();
    let mut random = Random::new(SEED);
    unsound::clauses_broken(&mut random, 1500, |random, model, image| {
        ordinary_calls(&mut count, random, model, image)
    });
    count.end(1500 * COMPARED);
}

#[test]
fn random_words_and_pages() {
    let mut count = Comparisons::default();
    let mut random = Random::new(SEED);
    unsound::random_memory(&mut random, 2000, 0x0003_000f, |random, model, image| {
        ordinary_calls(&mut count, random, model, image)
    });
    count.end(2000 * COMPARED);
}

#[test]
fn random_states() {
    let mut count = Comparisons::default();
    let mut random = Random::new(SEED);
    unsound::random_states(&mut random, 2000, |random, model, image| {
        ordinary_calls(&mut count, random, model, image)
    });
    count.end(2000 * COMPARED);
}

#[test]
fn wild_limits() {
    let mut count = Comparisons::default();
    let mut random = Random::new(SEED);
    unsound::wild_limits(&mut random, |random, model, image| {
        ordinary_calls(&mut count, random, model, image)
    });
    count.end(unsound::WILD * COMPARED);
}
