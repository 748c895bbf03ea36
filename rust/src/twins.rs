//! A store with marks of signed attributes beside the store of its encodings, which has none: after the same calls they
//! differ in the marks and in the fields of marked attributes alone (document 02, request 4).
use crate::compare::Comparisons;
use crate::host::{Refused, Shape};
use crate::lent::{lend_bytes, Lent, LentStore};
use crate::plain::image::{Image, DEPTH, PAGE_LIMIT, SIGNS};
use crate::plain::model::Model;
use crate::plain::refusal::page_size;
use crate::plain::samples::{query_of, random_key, random_payload, range_of};
use crate::plain::value::encoding;
use crate::random::Random;
use std::fmt::Arguments;

/// The comparisons of a change, and those of a lookup, a query and a range.
pub const CHANGED: u64 = 6;
pub const ASKED: u64 = 5;

/// The bytes of a record.
const RECORD: usize = 12;

/// The two stores, and the model of the one with marks, from which keys are drawn.
pub struct Twins {
    marked: LentStore,
    plain: LentStore,
    model: Model,
}

impl Twins {
    /// Two stores that Fresh makes in equal memory.
    pub fn new(random: &mut Random, shape: Shape) -> Twins {
        let (words, pages) = (1 + random.below(200), 1 + random.below(30));
        let memory = Image::random(random, words, pages * page_size(shape));
        Twins {
            marked: LentStore::fresh(random, shape, &memory),
            plain: LentStore::fresh(random, Shape { signs: 0, ..shape }, &memory),
            model: Model::fresh(shape, words, memory.pages.len()).expect("accepted"),
        }
    }

    /// An insert or a delete on both: equal answers, and stores that differ by the encoding alone. Returns the answer.
    pub fn change(&mut self, count: &mut Comparisons, random: &mut Random) -> Result<u32, Refused> {
        let (key, payload) = (self.key(random), random_payload(random));
        let code = self.encoded_key(key);
        let insert = random.below(3) > 0;
        let (found, expected) = match insert {
            true => (self.marked.insert(key, payload), self.plain.insert(code, payload)),
            false => (self.marked.delete(key), self.plain.delete(code)),
        };
        let about = format_args!("insert {insert}, {key:?}, {payload}: {:?}", self.model);
        count.same(found, expected, about);
        self.compare(count, about);
        match (found, insert) {
            (Ok(_), true) => self.model.records.push(self.model.record(key, payload)),
            (Ok(_), false) => self.model.records.retain(|record| record.key != key),
            (Err(_), _) => {}
        }
        found
    }

    /// A lookup, a query and a range on both: equal answers, and outputs that differ by the encoding alone. Returns the
    /// numbers of the query and the range, 0 where they are accepted.
    pub fn ask(&self, count: &mut Comparisons, random: &mut Random) -> [u32; 2] {
        let key = self.key(random);
        let code = self.encoded_key(key);
        let about = format_args!("{key:?}: {:?}", self.model);
        count.same(self.marked.lookup(key), self.plain.lookup(code), about);
        let subset = self.subset(random);
        let mut outs = equal_outputs(random);
        let found = self.marked.query(query_of(subset, key), &mut outs[0]);
        let expected = self.plain.query(query_of(subset, code), &mut outs[1]);
        let query = self.compare_lists(count, [found, expected], &outs, about);
        let (subset, keys) = (self.subset(random), [key, self.key(random)]);
        let range = range_of(random, &self.model, subset, keys);
        let code = |j: usize| range[j].map(|(low, high)| (self.encoded(j, low), self.encoded(j, high)));
        let mut outs = equal_outputs(random);
        let found = self.marked.range(range, &mut outs[0]);
        let expected = self.plain.range([0, 1, 2, 3].map(code), &mut outs[1]);
        let about = format_args!("{range:?}: {:?}", self.model);
        [query, self.compare_lists(count, [found, expected], &outs, about)]
    }

    /// State, words in use, counts and records, check.
    fn compare(&self, count: &mut Comparisons, about: Arguments) {
        let (marked, plain) = (self.marked.image(), self.plain.image());
        count.same(&marked.state[..SIGNS], &plain.state[..SIGNS], about);
        count.same((marked.state[SIGNS], plain.state[SIGNS]), (self.model.shape.signs, 0), about);
        let used = 1 << marked.state[DEPTH];
        count.same(&marked.dir[..used], &plain.dir[..used], about);
        let size = page_size(self.model.shape);
        let wrong = (0..marked.state[PAGE_LIMIT] as usize).find(|&g| {
            let records = g * size + 2..g * size + 2 + RECORD * plain.count(g);
            marked.count(g) != plain.count(g)
                || self.encoded_records(&marked.pages[records.clone()]) != plain.pages[records]
        });
        count.same(wrong, None, about);
        count.same([self.marked.check(), self.plain.check()], [Ok(true); 2], about);
    }

    /// The answers of two calls that list records, and their outputs. Returns the number.
    fn compare_lists(
        &self,
        count: &mut Comparisons,
        found: [Result<(u64, u64, u64), Refused>; 2],
        outs: &[Lent<u8>; 2],
        about: Arguments,
    ) -> u32 {
        count.same(found[0], found[1], about);
        let written = found[0].map_or(0, |(written, ..)| RECORD * written as usize);
        let (listed, rest) = outs[0].slice().split_at(written);
        count.same(&[&self.encoded_records(listed), rest].concat()[..], outs[1].slice(), about);
        found[0].map_or_else(|refused| refused.number, |_| 0)
    }

    /// A key near those stored, one in sixteen with a bit changed that may be past a width.
    fn key(&self, random: &mut Random) -> [i32; 4] {
        let mut key = random_key(random, &self.model);
        if random.below(16) == 0 {
            key[random.below(4)] ^= 1 << random.below(32);
        }
        key
    }

    /// The attributes that a query or a range gives: any in one of eight cases, otherwise some of those in use.
    fn subset(&self, random: &mut Random) -> usize {
        let used = (1 << self.model.widths().len()) - 1;
        random.below(16) & if random.below(8) == 0 { 15 } else { used }
    }

    /// The encoding of a number; of one that is no value, a number that is no encoding.
    fn encoded(&self, j: usize, number: i32) -> i32 {
        encoding(self.model.shape, j, number) as i32
    }

    /// The encodings of a key.
    fn encoded_key(&self, key: [i32; 4]) -> [i32; 4] {
        [0, 1, 2, 3].map(|j| self.encoded(j, key[j]))
    }

    /// The bytes of records with encodings in their fields.
    fn encoded_records(&self, bytes: &[u8]) -> Vec<u8> {
        let mut records = bytes.to_vec();
        for record in records.chunks_exact_mut(RECORD) {
            for (j, field) in record[..8].chunks_exact_mut(2).enumerate() {
                let number = u16::from_le_bytes([field[0], field[1]]);
                field.copy_from_slice(&(self.encoded(j, number.into()) as u16).to_le_bytes());
            }
        }
        records
    }
}

/// Two outputs of the same bytes.
fn equal_outputs(random: &mut Random) -> [Lent<u8>; 2] {
    let length = random.below(200);
    let content = random.bytes(length);
    [0; 2].map(|_| lend_bytes(random, &content))
}
