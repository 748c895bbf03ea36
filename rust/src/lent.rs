//! Slices lent to calls, between guards that no call may change.
use crate::host::{self, CheckResult, HostQuery, HostRange, QueryResult, Refused, SaveResult, Shape};
use crate::host::{ChangeResult, LookupResult, MakeResult};
use crate::plain::image::{Image, Laid, DEPTH, DEPTH_LIMIT, PAGE_LIMIT, SIGNS, STATE};
use crate::plain::kept::Change;
use crate::plain::model::Model;
use crate::plain::range::Intervals;
use crate::plain::refusal::refusal;
use crate::random::Random;
use std::fmt::Debug;
use std::hint::black_box;
use std::ops::Range;

/// A slice inside of a longer one, and a copy of all as it was lent.
pub struct Lent<T> {
    all: Vec<T>,
    part: Range<usize>,
    before: Vec<T>,
}

impl<T: Copy + Debug + PartialEq> Lent<T> {
    /// The content, with guards before and after it.
    pub fn new(before: Vec<T>, content: &[T], after: Vec<T>) -> Lent<T> {
        let all = [&before[..], content, &after].concat();
        Lent { part: before.len()..before.len() + content.len(), before: all.clone(), all }
    }

    pub fn slice(&self) -> &[T] {
        &self.all[self.part.clone()]
    }

    pub fn slice_mut(&mut self) -> &mut [T] {
        &mut self.all[self.part.clone()]
    }

    /// Whether content and guards are as they were lent.
    pub fn unchanged(&self) -> bool {
        black_box(&self.all) == &self.before
    }

    /// Whether the content from this place on is as it was lent, and so are the guards.
    pub fn unchanged_from(&self, place: usize) -> bool {
        let place = self.part.end.min(self.part.start + place);
        self.guards_stay() && black_box(&self.all)[place..] == self.before[place..]
    }

    /// The content as it was lent.
    pub fn before(&self) -> &[T] {
        &self.before[self.part.clone()]
    }

    /// Lends the content as it is now.
    pub fn lend_again(&mut self) {
        self.before.copy_from_slice(&self.all);
    }

    /// Whether the guards are as they were lent.
    pub fn guards_stay(&self) -> bool {
        let Range { start, end } = self.part;
        let all = black_box(&self.all);
        all[..start] == self.before[..start] && all[end..] == self.before[end..]
    }
}

/// Words between up to seven guards on each side.
pub fn lend_words(random: &mut Random, content: &[u32]) -> Lent<u32> {
    let (before, after) = (random.below(8), random.below(8));
    Lent::new(random.words(before), content, random.words(after))
}

/// Bytes between up to seven guards on each side, so that they begin at any place of a word.
pub fn lend_bytes(random: &mut Random, content: &[u8]) -> Lent<u8> {
    let (before, after) = (random.below(8), random.below(8));
    Lent::new(random.bytes(before), content, random.bytes(after))
}

/// A store lent to calls.
pub struct LentStore {
    pub state: Lent<u32>,
    pub dir: Lent<u32>,
    pub pages: Lent<u8>,
}

impl LentStore {
    pub fn new(random: &mut Random, image: &Image) -> LentStore {
        LentStore {
            state: lend_words(random, &image.state),
            dir: lend_words(random, &image.dir),
            pages: lend_bytes(random, &image.pages),
        }
    }

    /// A sound store of a model's set.
    pub fn of(random: &mut Random, model: &Model) -> LentStore {
        let laid = Laid::new(random, model);
        LentStore::new(random, &laid.image)
    }

    /// A store that Fresh makes of memory.
    pub fn fresh(random: &mut Random, shape: Shape, memory: &Image) -> LentStore {
        let mut store = LentStore::new(random, memory);
        let LentStore { state, dir, pages } = &mut store;
        host::fresh(shape, state.slice_mut(), dir.slice_mut(), pages.slice_mut()).expect("accepted");
        state.lend_again();
        dir.lend_again();
        pages.lend_again();
        store
    }

    /// A store that a load makes of a file in memory, or the refusal, with nothing changed. "Words past the first 2^L
    /// and bytes past the P pages are never changed", and neither is what lies past the state.
    pub fn load(random: &mut Random, file: &[u8], memory: &Image) -> Result<LentStore, Refused> {
        let mut store = LentStore::new(random, memory);
        let file = lend_bytes(random, file);
        let LentStore { state, dir, pages } = &mut store;
        let MakeResult { number, attribute } =
            host::load_result(file.slice(), state.slice_mut(), dir.slice_mut(), pages.slice_mut());
        assert!(file.unchanged(), "the file is changed");
        if let Err(refused) = answer(number, attribute, (), ()) {
            store.assert_unchanged();
            return Err(refused);
        }
        let (p, l) = (state.slice()[PAGE_LIMIT] as usize, state.slice()[DEPTH_LIMIT]);
        let size = 2 + 12 * state.slice()[5] as usize;
        assert!(state.unchanged_from(STATE), "what lies past the state is changed");
        assert!(dir.unchanged_from(1 << l), "words past 2^L are changed");
        assert!(pages.unchanged_from(p * size), "bytes past the P pages are changed");
        state.lend_again();
        dir.lend_again();
        pages.lend_again();
        Ok(store)
    }

    /// The bytes of the file, or the refusal, which leaves the output alone.
    pub fn save(&self, out: &mut Lent<u8>) -> Result<u64, Refused> {
        let (state, dir, pages) = (self.state.slice(), self.dir.slice(), self.pages.slice());
        let SaveResult { number, attribute, size } = host::save_result(state, dir, pages, out.slice_mut());
        self.assert_unchanged();
        match number {
            0 => assert!(out.unchanged_from(size as usize), "what lies behind the file is changed"),
            _ => assert!(out.unchanged(), "the output is changed"),
        }
        answer(number, attribute, size, 0)
    }

    /// The payload, the reads and the depth, or the refusal.
    pub fn lookup(&self, key: [i32; 4]) -> Result<(u32, u32, u32), Refused> {
        let LookupResult { number, attribute, payload, reads, depth } =
            host::lookup_result(self.state.slice(), self.dir.slice(), self.pages.slice(), key);
        self.assert_unchanged();
        let found = answer(number, attribute, (payload, reads), (0, 0));
        let (payload, reads) = found.map_err(|refused| with_depth(refused, depth))?;
        Ok((payload, reads, depth))
    }

    /// Written, total and reads, or the refusal. Attributes are given by any number but 0, and have any value where
    /// they are free.
    pub fn query(&self, query: [Option<i32>; 4], out: &mut Lent<u8>) -> Result<(u64, u64, u64), Refused> {
        let given = [0, 1, 2, 3].map(|j| if query[j].is_some() { [1, 2, 1 << 31, u32::MAX][j] } else { 0 });
        let values = [0, 1, 2, 3].map(|j| query[j].unwrap_or([-1, 1, 1 << 16, i32::MIN][j]));
        let query = HostQuery { given, values };
        let (state, dir, pages) = (self.state.slice(), self.dir.slice(), self.pages.slice());
        let result = host::query_result(state, dir, pages, query, out.slice_mut());
        self.listed(result, out)
    }

    /// Written, total and reads, or the refusal. Attributes are given by any number but 0, and have any ends where they
    /// are free.
    pub fn range(&self, range: Intervals, out: &mut Lent<u8>) -> Result<(u64, u64, u64), Refused> {
        let given = [0, 1, 2, 3].map(|j| if range[j].is_some() { [u32::MAX, 1 << 31, 2, 1][j] } else { 0 });
        let any = [(1, 0), (i32::MAX, i32::MIN), (-1, 1 << 16), (5, -2)];
        let ends = [0, 1, 2, 3].map(|j| range[j].unwrap_or(any[j]));
        let range = HostRange { given, low: ends.map(|(low, _)| low), high: ends.map(|(_, high)| high) };
        let (state, dir, pages) = (self.state.slice(), self.dir.slice(), self.pages.slice());
        let result = host::range_result(state, dir, pages, range, out.slice_mut());
        self.listed(result, out)
    }

    /// What a query or a range returned, which leaves the store and the output's guards alone.
    fn listed(&self, result: QueryResult, out: &Lent<u8>) -> Result<(u64, u64, u64), Refused> {
        let QueryResult { number, attribute, written, total, reads } = result;
        self.assert_unchanged();
        assert!(out.guards_stay(), "a guard of the output is changed");
        answer(number, attribute, (written, total, reads), (0, 0, 0))
    }

    /// Whether the store is sound, or the refusal.
    pub fn check(&self) -> Result<bool, Refused> {
        let CheckResult { number, attribute, sound } =
            host::check_result(self.state.slice(), self.dir.slice(), self.pages.slice());
        self.assert_unchanged();
        assert!(sound <= 1, "check says {sound}");
        answer(number, attribute, sound == 1, false)
    }

    /// Adds a record: the depth of the key's leaf afterwards, or the refusal.
    pub fn insert(&mut self, key: [i32; 4], payload: u32) -> Result<u32, Refused> {
        let (state, dir, pages) = (self.state.slice_mut(), self.dir.slice_mut(), self.pages.slice_mut());
        let result = host::insert_result(state, dir, pages, key, payload);
        self.settle(result)
    }

    /// Removes the record of a key: the depth of the key's leaf afterwards, or the refusal.
    pub fn delete(&mut self, key: [i32; 4]) -> Result<u32, Refused> {
        let (state, dir, pages) = (self.state.slice_mut(), self.dir.slice_mut(), self.pages.slice_mut());
        let result = host::delete_result(state, dir, pages, key);
        self.settle(result)
    }

    /// The lent store as it is now.
    pub fn image(&self) -> Image {
        Image {
            state: self.state.slice().to_vec(),
            dir: self.dir.slice().to_vec(),
            pages: self.pages.slice().to_vec(),
        }
    }

    /// After a change: "All of them return the number and change nothing"; "Words past the first 2^L and bytes past the
    /// P pages are never changed", and neither are shape, P, L and what lies past the state.
    fn settle(&mut self, ChangeResult { number, attribute, depth }: ChangeResult) -> Result<u32, Refused> {
        if let Err(refused) = answer(number, attribute, (), ()) {
            self.assert_unchanged();
            return Err(with_depth(refused, depth));
        }
        let state = self.state.before();
        let (p, l) = (state[PAGE_LIMIT] as usize, state[DEPTH_LIMIT]);
        let size = 2 + 12 * state[5] as usize;
        assert_eq!(self.state.slice()[..DEPTH], state[..DEPTH], "shape, P and L");
        assert_eq!(self.state.slice()[SIGNS], state[SIGNS], "marks");
        assert!(self.state.unchanged_from(STATE), "what lies past the state is changed");
        assert!(self.dir.unchanged_from(1 << l), "words past 2^L are changed");
        assert!(self.pages.unchanged_from(p * size), "bytes past the P pages are changed");
        self.state.lend_again();
        self.dir.lend_again();
        self.pages.lend_again();
        Ok(depth)
    }

    /// "Query, lookup and check write nothing in the store, sound or not", nor does a range, and no refused call does.
    fn assert_unchanged(&self) {
        assert!(self.state.unchanged(), "the state is changed");
        assert!(self.dir.unchanged(), "the directory is changed");
        assert!(self.pages.unchanged(), "the pages are changed");
    }
}

/// Values beside number 0; any other number, which has zeros beside it. An attribute stands beside 14 alone.
fn answer<T: PartialEq + Debug>(number: u32, attribute: u32, values: T, zeros: T) -> Result<T, Refused> {
    assert!(number == 14 || attribute == 0, "attribute {attribute} beside number {number}");
    if number == 0 {
        return Ok(values);
    }
    assert_eq!(values, zeros, "values beside number {number}");
    Err(Refused { number, attribute, depth: 0 })
}

/// A refusal with a depth beside its number: "no other number carries a depth" than 5.
fn with_depth(refused: Refused, depth: u32) -> Refused {
    assert!(refused.number == 5 || depth == 0, "depth {depth} beside number {}", refused.number);
    Refused { depth, ..refused }
}

/// A record that a lookup found in another leaf before an accepted change, and that it does not find with the same
/// payload and depth after it. A leaf of a depth that a wrong tally does not have any more is told, and not lost.
pub fn record_lost(change: &Change) -> Option<String> {
    change.before.keys().into_iter().find_map(|key| {
        let [found, now] = [&change.before, &change.after].map(|reading| {
            let Image { state, dir, pages } = reading.image;
            host::lookup(state, dir, pages, key)
        });
        let bits = change.before.model.split_bits(key);
        let told = now == Err(refusal(9)) && !change.after.word_fair(change.before.word(&bits));
        let lost = found.is_ok() && !bits.starts_with(change.region()) && now != found && !told;
        lost.then(|| format!("record {key:?}: {found:?}, then {now:?}"))
    })
}
