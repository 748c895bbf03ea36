//! A store whose calls are made on a plain model too, and all that it shows compared after each.
use crate::cells::Cells;
use crate::compare::Comparisons;
use crate::host::{Refused, Shape};
use crate::lent::LentStore;
use crate::plain::image::{Image, STATE};
use crate::plain::model::Model;
use crate::plain::refusal::page_size;
use crate::plain::shown::{pages_kept, pages_shown, Pages};
use crate::random::Random;
use std::fmt::Arguments;

/// The comparisons of a call that changes the store.
pub const COMPARED: u64 = 4;

/// A lent store, the model beside it, and the pages of its leaves.
pub struct Followed {
    pub store: LentStore,
    pub model: Model,
    cells: Cells,
    pages: Pages,
}

impl Followed {
    /// A store of a model's set, written from scratch.
    pub fn of(random: &mut Random, model: Model) -> Followed {
        let store = LentStore::of(random, &model);
        Followed::new(store, model)
    }

    /// A store that Fresh makes in so many random words and pages, with some bytes more.
    pub fn fresh(random: &mut Random, shape: Shape, words: usize, pages: usize) -> Followed {
        let bytes = pages * page_size(shape) + random.below(page_size(shape));
        let words_more = random.below(3);
        let image = Image {
            state: random.words(STATE + words_more),
            dir: random.words(words),
            pages: random.bytes(bytes),
        };
        let store = LentStore::fresh(random, shape, &image);
        Followed::new(store, Model::fresh(shape, words, bytes).expect("accepted"))
    }

    /// A store that shows a model's set.
    pub fn new(store: LentStore, model: Model) -> Followed {
        let cells = Cells::new(model.widths(), model.depth_limit);
        let pages = pages_shown(&store.image(), &model, &cells).expect("the store shows the model's set");
        Followed { store, model, cells, pages }
    }

    /// Inserts a record, and compares. Returns the answer: the depth of the key's leaf afterwards, or the refusal.
    #[track_caller]
    pub fn insert(&mut self, count: &mut Comparisons, key: [i32; 4], payload: u32) -> Result<u32, Refused> {
        let answer = self.store.insert(key, payload);
        let expected = self.model.insert(key, payload);
        self.compare(count, answer, expected, format_args!("insert {key:?}, {payload}"));
        answer
    }

    /// Deletes the record of a key, and compares. Returns the answer: the depth of the key's leaf afterwards, or the
    /// refusal.
    #[track_caller]
    pub fn delete(&mut self, count: &mut Comparisons, key: [i32; 4]) -> Result<u32, Refused> {
        let answer = self.store.delete(key);
        let expected = self.model.delete(key);
        self.compare(count, answer, expected, format_args!("delete {key:?}"));
        answer
    }

    /// Writes payload 0 over that of some records, in the bytes of their pages, and in the model. Returns their keys.
    pub fn clear_payloads(&mut self, mut chosen: impl FnMut() -> bool) -> Vec<[i32; 4]> {
        let mut image = self.store.image();
        let mut keys = vec![];
        for &g in self.pages.values().flatten() {
            for i in (0..image.count(g)).filter(|_| chosen()) {
                keys.push(image.content(g, i).0);
                image.record(g, i)[8..].fill(0);
            }
        }
        self.store.pages.slice_mut().copy_from_slice(&image.pages);
        self.store.pages.lend_again();
        let cleared = self.model.records.iter_mut().filter(|record| keys.contains(&record.key));
        cleared.for_each(|record| record.payload = 0);
        keys
    }

    /// How many pages have records, and T.
    pub fn extent(&self) -> (usize, usize) {
        let used = self.pages.values().filter(|page| page.is_some()).count();
        (used, self.pages.keys().map(Vec::len).max().expect("there is always a leaf"))
    }

    /// Compares the answer, the store with the model's leaves, the pages with those before, and check's answer.
    #[track_caller]
    fn compare(
        &mut self,
        count: &mut Comparisons,
        answer: Result<u32, Refused>,
        expected: Result<u32, Refused>,
        call: Arguments,
    ) {
        let Model { shape, page_limit, depth_limit, records, .. } = &self.model;
        let about = format_args!("{call}; {shape:?}, P = {page_limit}, L = {depth_limit}, then {records:?}");
        count.same(answer, expected, about);
        let shown = pages_shown(&self.store.image(), &self.model, &self.cells);
        count.same(shown.as_ref().err(), None, about);
        let shown = shown.expect("just compared");
        count.same(pages_kept(&self.pages, &shown), Ok(()), about);
        count.same(self.store.check(), Ok(true), about);
        self.pages = shown;
    }
}
