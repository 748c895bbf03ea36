//! Lookup, query and range on unsound stores and on random memory: they end, write nothing but what they answer, and
//! answer 9 where they meet damage that they have to tell, otherwise 9 or what is ordinary for the call. A lookup's
//! depth is that in the word of the key's cell.
use mdeh_tests::cells::Cells;
use mdeh_tests::compare::Comparisons;
use mdeh_tests::host::Refused;
use mdeh_tests::lent::{lend_bytes, Lent, LentStore};
use mdeh_tests::plain::image::Image;
use mdeh_tests::plain::judge::{early_refusal, judge, limits_hold};
use mdeh_tests::plain::model::Model;
use mdeh_tests::plain::range::range_refused;
use mdeh_tests::plain::reading::Reading;
use mdeh_tests::plain::refusal::{absent, key_refused, query_refused, refusal};
use mdeh_tests::plain::samples::{query_of, random_key, range_of};
use mdeh_tests::plain::unsound;
use mdeh_tests::random::Random;
use std::fmt::Arguments;

const SEED: u64 = 0x6d64_6568_2d30_3038;

/// The comparisons of `all_calls`.
const COMPARED: u64 = 1 + 4 + 4 + 4;

/// Some lookups, queries and ranges on any store, with keys near those of a model: refused early as the table says, otherwise
/// 9 or ordinary. Limits that no sound store has are told by every call. Check answers as the judge does.
fn all_calls(count: &mut Comparisons, random: &mut Random, model: &Model, image: &Image) {
    let store = LentStore::new(random, image);
    let about = format_args!("{model:?}, state {:?}", image.state);
    count.same(store.check(), judge(image), about);
    let early = early_refusal(image);
    let cells = (early.is_none() && limits_hold(image)).then(|| Cells::of_store(image));
    let reading = cells.as_ref().map(|cells| Reading::new(image, cells));
    for _ in 0..4 {
        let key = random_key(random, model);
        let found = store.lookup(key);
        let value_refused = || key_refused(image.shape(), key).then_some(refusal(3));
        let right = match (early.or_else(value_refused), &reading) {
            (Some(refused), _) => found == Err(refused),
            (None, Some(reading)) if !reading.lookup_told(key) => {
                let depth = reading.depth_at(key);
                found.is_ok_and(|(_, reads, found)| (reads, found) == (1, depth))
                    || [absent(depth), refusal(9)].map(Err).contains(&found)
            }
            _ => found == Err(refusal(9)),
        };
        count.same((right, found), (true, found), about);
        let query = query_of(random.below(16), key);
        let told = reading.as_ref().is_none_or(|reading| reading.query_told(query));
        let refused = early.or_else(|| query_refused(image.shape(), query));
        let about = format_args!("state {:?}, {query:?}", image.state);
        list_is_ordinary(count, random, refused, told, about, |out| store.query(query, out));
        let subset = random.below(16);
        let keys = [key, random_key(random, model)];
        let range = range_of(random, model, subset, keys);
        let told = reading.as_ref().is_none_or(|reading| reading.range_told(range));
        let refused = early.or_else(|| range_refused(image.shape(), range));
        let about = format_args!("state {:?}, {range:?}", image.state);
        list_is_ordinary(count, random, refused, told, about, |out| store.range(range, out));
    }
}

/// A query or a range, which is to be refused before any look into words and pages, or has to tell damage,
/// or neither.
fn list_is_ordinary(
    count: &mut Comparisons,
    random: &mut Random,
    refused: Option<Refused>,
    told: bool,
    about: Arguments,
    call: impl FnOnce(&mut Lent<u8>) -> Result<(u64, u64, u64), Refused>,
) {
    let length = random.below(200);
    let content = random.bytes(length);
    let mut out = lend_bytes(random, &content);
    let found = call(&mut out);
    let right = match (refused, found) {
        (Some(refused), _) => found == Err(refused) && out.unchanged(),
        (None, Err(refused)) => refused == refusal(9) && out.unchanged(),
        (None, Ok(_)) if told => false,
        (None, Ok((written, total, reads))) => {
            let fits = written <= total && written <= content.len() as u64 / 12;
            fits && reads <= 4096 && out.slice()[12 * written as usize..] == content[12 * written as usize..]
        }
    };
    count.same((right, found), (true, found), about);
}

#[test]
fn each_clause_broken_in_turn() {
    let mut count = Comparisons::default();
    let mut random = Random::new(SEED);
    unsound::clause_broken(&mut random, 60, |random, model, image| {
        all_calls(&mut count, random, model, image)
    });
    count.end(25 * 60 * COMPARED);
}

#[test]
fn several_clauses_broken_at_once() {
    let mut count = Comparisons::default();
    let mut random = Random::new(SEED);
    unsound::clauses_broken(&mut random, 1000, |random, model, image| {
        all_calls(&mut count, random, model, image)
    });
    count.end(1000 * COMPARED);
}

#[test]
fn random_words_and_pages() {
    let mut count = Comparisons::default();
    let mut random = Random::new(SEED);
    unsound::random_memory(&mut random, 1500, 0x000f_003f, |random, model, image| {
        all_calls(&mut count, random, model, image)
    });
    count.end(1500 * COMPARED);
}

#[test]
fn random_states() {
    let mut count = Comparisons::default();
    let mut random = Random::new(SEED);
    unsound::random_states(&mut random, 1500, |random, model, image| {
        all_calls(&mut count, random, model, image)
    });
    count.end(1500 * COMPARED);
}

#[test]
fn wild_limits() {
    let mut count = Comparisons::default();
    let mut random = Random::new(SEED);
    unsound::wild_limits(&mut random, |random, model, image| all_calls(&mut count, random, model, image));
    count.end(unsound::WILD * COMPARED);
}
