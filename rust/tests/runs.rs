//! Long runs of all calls on one store: each answer and output as a list gives it, the state that of the list's leaves,
//! the store sound after each call, guards around every lent slice.
use mdeh_tests::compare::Comparisons;
use mdeh_tests::followed::{Followed, COMPARED};
use mdeh_tests::host::Shape;
use mdeh_tests::lent::{lend_bytes, LentStore};
use mdeh_tests::plain::image::Image;
use mdeh_tests::plain::model::Model;
use mdeh_tests::plain::ordered::Ordered;
use mdeh_tests::plain::refusal::{page_size, refusal};
use mdeh_tests::plain::samples::{query_of, random_key, random_payload, range_of};
use mdeh_tests::random::Random;
use mdeh_tests::shapes::random_shape;

const SEED: u64 = 0x6d64_6568_2d30_3133;

// ---- a list scanned in full

/// Small stores that grow and shrink to empty: every word and page compared after each change.
#[test]
fn every_word_and_page_of_small_stores() {
    let mut count = Comparisons::default();
    let mut random = Random::new(SEED);
    let mut refused = 0;
    for _ in 0..300 {
        let shape = random_shape(&mut random, 18, 5);
        let (words, pages) = (1 + random.below(200), 1 + random.below(25));
        let mut followed = Followed::fresh(&mut random, shape, words, pages);
        for turn in 0..300 {
            let key = random_key(&mut random, &followed.model);
            // more inserts at first, more deletes at last
            if random.below(300) > turn {
                let answer = followed.insert(&mut count, key, random_payload(&mut random));
                refused += u64::from(answer == Err(refusal(11)));
            } else {
                let _ = followed.delete(&mut count, key);
            }
            let key = random_key(&mut random, &followed.model);
            let about = format_args!("turn {turn}, {key:?}: {:?}", followed.model);
            count.same(followed.store.lookup(key), followed.model.lookup(key), about);
            let query = query_of(random.below(16), key);
            let length = random.below(200);
            let mut expected = random.bytes(length);
            let mut out = lend_bytes(&mut random, &expected);
            let found = followed.store.query(query, &mut out);
            count.same(found, followed.model.query(query, &mut expected), about);
            count.same(out.slice(), &expected[..], about);
            let keys = [key, random_key(&mut random, &followed.model)];
            let subset = random.below(16);
            let range = range_of(&mut random, &followed.model, subset, keys);
            let about = format_args!("turn {turn}, {range:?}: {:?}", followed.model);
            let found = followed.store.range(range, &mut out);
            count.same(found, followed.model.range(range, &mut expected), about);
            count.same(out.slice(), &expected[..], about);
        }
    }
    println!("{refused} refused with 11");
    assert!(refused > 1000);
    count.end(300 * 300 * (COMPARED + 5));
}

// ---- a list in split order

/// A lent store and the list beside it.
struct Run {
    store: LentStore,
    list: Ordered,
    random: Random,
    /// calls made
    calls: u64,
    /// inserts refused with 11
    refused: u64,
}

impl Run {
    fn new(mut random: Random, shape: Shape, words: usize, pages: usize) -> Run {
        let bytes = pages * page_size(shape);
        let image = Image::random(&mut random, words, bytes);
        let store = LentStore::fresh(&mut random, shape, &image);
        let list = Ordered::new(Model::fresh(shape, words, bytes).expect("accepted"));
        Run { store, list, random, calls: 1, refused: 0 }
    }

    /// A key: of three, one is stored, one shares its first bits with a stored one, one is random.
    fn key(&mut self) -> [i32; 4] {
        let code = self.random.number();
        if self.list.is_empty() {
            return self.list.key_of(code);
        }
        let stored = self.list.key(self.random.below(self.list.len()));
        match self.random.below(3) {
            0 => stored,
            1 => {
                let common = self.random.between(1, 63);
                let low = u64::MAX >> common;
                self.list.key_of(self.list.code(stored) & !low | code & low)
            }
            _ => self.list.key_of(code),
        }
    }

    /// Inserts with a probability of `share` in 16, and otherwise deletes. Answer and state are compared.
    fn change(&mut self, count: &mut Comparisons, share: usize) {
        let key = self.key();
        let payload = random_payload(&mut self.random);
        let insert = self.random.below(16) < share;
        let (found, expected) = match insert {
            true => (self.store.insert(key, payload), self.list.insert(key, payload)),
            false => (self.store.delete(key), self.list.delete(key)),
        };
        let about =
            format_args!("call {}: insert {insert}, {key:?}, {payload}, {:?}", self.calls, self.list.model);
        count.same(found, expected, about);
        count.same(self.store.state.slice(), &self.list.state()[..], about);
        self.refused += u64::from(found == Err(refusal(11)));
        self.calls += 1;
    }

    fn check(&mut self, count: &mut Comparisons) {
        let about = format_args!("call {}: {:?}", self.calls, self.list.model);
        count.same(self.store.check(), Ok(true), about);
        self.calls += 1;
    }

    fn lookup(&mut self, count: &mut Comparisons) {
        let key = self.key();
        let about = format_args!("call {}: lookup {key:?}, {:?}", self.calls, self.list.model);
        count.same(self.store.lookup(key), self.list.lookup(key), about);
        self.calls += 1;
    }

    /// A query whose output has room for up to so many records.
    fn query(&mut self, count: &mut Comparisons, given: usize, most: usize) {
        let query = query_of(given, self.key());
        let length = self.random.below(12 * most + 1);
        let mut expected = self.random.bytes(length);
        let mut out = lend_bytes(&mut self.random, &expected);
        let found = self.store.query(query, &mut out);
        let about = format_args!("call {}: {query:?}, {:?}", self.calls, self.list.model);
        count.same(found, self.list.query(query, &mut expected), about);
        count.same(out.slice(), &expected[..], about);
        self.calls += 1;
    }

    /// A range of some attributes whose output has room for up to so many records.
    fn range(&mut self, count: &mut Comparisons, given: usize, most: usize) {
        let keys = [self.key(), self.key()];
        let range = range_of(&mut self.random, &self.list.model, given, keys);
        let length = self.random.below(12 * most + 1);
        let mut expected = self.random.bytes(length);
        let mut out = lend_bytes(&mut self.random, &expected);
        let found = self.store.range(range, &mut out);
        let about = format_args!("call {}: {range:?}, {:?}", self.calls, self.list.model);
        count.same(found, self.list.range(range, &mut expected), about);
        count.same(out.slice(), &expected[..], about);
        self.calls += 1;
    }

    /// Deletes all records.
    fn empty(&mut self, count: &mut Comparisons) -> u64 {
        let mut deletes = 0;
        while !self.list.is_empty() {
            let key = self.list.key(self.random.below(self.list.len()));
            let expected = self.list.delete(key);
            assert!(expected.is_ok());
            let about = format_args!("delete {key:?}, {:?}", self.list.model);
            count.same(self.store.delete(key), expected, about);
            deletes += 1;
        }
        assert_eq!(self.store.state.slice()[8..11], [0, 1, 0]);
        self.calls += deletes;
        deletes
    }
}

/// Stores that grow and shrink several times, and to empty at last.
fn runs(seed: u64, stores: usize, bits: u32, most_capacity: u64, most_pages: usize, turns: usize) {
    let mut count = Comparisons::default();
    let mut random = Random::new(seed);
    let (mut calls, mut deletes, mut refused) = (0, 0, 0);
    for _ in 0..stores {
        let shape = random_shape(&mut random, bits, most_capacity);
        let (words, pages) = (1 + random.below(2 * most_pages), 1 + random.below(most_pages));
        let mut run = Run::new(Random::new(random.number() | 1), shape, words, pages);
        for turn in 0..turns {
            // grows for a quarter of the turns, shrinks for the next
            let share = if turn * 4 / turns % 2 == 0 { 12 } else { 3 };
            run.change(&mut count, share);
            run.check(&mut count);
            run.lookup(&mut count);
            let given = run.random.below(16);
            run.query(&mut count, given, 20);
            let given = run.random.below(16);
            run.range(&mut count, given, 20);
        }
        deletes += run.empty(&mut count);
        run.check(&mut count);
        calls += run.calls;
        refused += run.refused;
    }
    println!("{calls} calls, {refused} refused with 11");
    assert!(refused > 1000);
    count.end((stores * (turns * 8 + 1)) as u64 + deletes);
}

#[test]
fn many_tiny_stores() {
    runs(SEED, 1500, 6, 3, 12, 500);
}

#[test]
fn stores_of_some_pages() {
    runs(SEED + 1, 250, 64, 5, 60, 2000);
}

#[test]
fn stores_of_many_records() {
    runs(SEED + 2, 10, 64, 16, 300, 8000);
}

/// The greatest store: 4,096 words and pages, its last attribute marked. Check, a query of everything and a range come
/// every 500 calls.
#[test]
fn the_greatest_store() {
    let mut count = Comparisons::default();
    let shape = Shape::new(&[8, 8, 10], 16).signed(2);
    let mut run = Run::new(Random::new(SEED), shape, 4096, 4096);
    for turn in 0..40_000 {
        run.change(&mut count, if turn < 26_000 { 15 } else { 4 });
        if turn % 500 == 0 {
            run.check(&mut count);
            run.query(&mut count, 0, 40_000);
            run.range(&mut count, turn / 500 % 8, 40_000);
        }
    }
    println!("{} records", run.list.len());
    let deletes = run.empty(&mut count);
    run.check(&mut count);
    println!("{} calls, {} refused with 11", run.calls, run.refused);
    assert!(run.refused > 1000);
    count.end(40_000 * 2 + 80 * 5 + deletes + 1);
}
