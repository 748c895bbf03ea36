//! Damage of each kind on random sound stores: how many calls, half of them near the damage, are answered as the plain
//! model answers them on the store as it was, how many with 9, how many silently wrong. Damage that a call meets and has
//! to tell is told in every case, and an accepted change loses nothing that another leaf answers for. A refused call
//! leaves every slice and every guard as it came (`LentStore` compares them).
use mdeh_tests::cells::{Cell, Cells};
use mdeh_tests::compare::Comparisons;
use mdeh_tests::host::{Refused, Shape};
use mdeh_tests::lent::{lend_bytes, record_lost, LentStore};
use mdeh_tests::plain::damage::memory::{Aged, Kind, CALLS, KINDS};
use mdeh_tests::plain::image::{page_of, word_of, Image, Laid, Placed, DEPTH};
use mdeh_tests::plain::judge::judge;
use mdeh_tests::plain::kept::Change;
use mdeh_tests::plain::leaves::{greatest_depth, Record};
use mdeh_tests::plain::model::Model;
use mdeh_tests::plain::reading::{sibling, Reading};
use mdeh_tests::plain::refusal::refusal;
use mdeh_tests::plain::samples::{given_payload, query_of, random_key, random_model, range_of};
use mdeh_tests::random::Random;

const SEED: u64 = 0x6d64_6568_2d30_3133;

/// The stores of each kind, and how often each call is made on one.
const STORES: usize = 150;
const TURNS: usize = 6;

// ---- the stores

/// A random sound store of the library's making, as it was some calls ago too, and the model of what it holds now.
fn aged_store(random: &mut Random) -> (Model, Aged) {
    let mut model = deep_model(random);
    let mut store = LentStore::of(random, &model);
    let older = store.image();
    for _ in 0..random.between(1, 40) {
        let key = some_key(random, &model);
        let payload = given_payload(random);
        let (found, expected) = match random.below(2) {
            0 => (store.insert(key, payload), model.insert(key, payload)),
            _ => (store.delete(key), model.delete(key)),
        };
        assert_eq!(found, expected, "{model:?}, {key:?}");
    }
    let now = store.image();
    assert_eq!(judge(&now), Ok(true));
    (model, Aged { now, older })
}

/// The one with the greatest T of three random models.
fn deep_model(random: &mut Random) -> Model {
    let models = [0; 3].map(|_| random_model(random));
    models.into_iter().max_by_key(|model| greatest_depth(&model.leaves())).expect("there are three")
}

/// A key, which is stored in every other case.
fn some_key(random: &mut Random, model: &Model) -> [i32; 4] {
    match model.records.len() {
        stored if stored > 0 && random.below(2) == 1 => model.records[random.below(stored)].key,
        _ => random_key(random, model),
    }
}

/// The strings of the cells whose word or page is another than it was.
fn harmed_cells(cells: &Cells, now: &Image, image: &Image) -> Vec<Vec<bool>> {
    let is_harmed = |cell: &Cell| {
        let word = now.dir[cell.address];
        word != image.dir[cell.address] || page_of(word).is_some_and(|g| !now.same_page(image, g))
    };
    cells.all(now.state[DEPTH] as usize).into_iter().filter(is_harmed).map(|cell| cell.bits).collect()
}

/// A key, which is in a harmed cell in every other case.
fn near_key(random: &mut Random, model: &Model, harmed: &[Vec<bool>]) -> [i32; 4] {
    let key = some_key(random, model);
    if harmed.is_empty() || random.below(2) == 0 {
        return key;
    }
    let cell = &harmed[random.below(harmed.len())];
    let stored: Vec<&Record> = model.records.iter().filter(|record| record.bits.starts_with(cell)).collect();
    if !stored.is_empty() && random.below(2) == 1 {
        return stored[random.below(stored.len())].key;
    }
    let bits = model.split_bits(key);
    model.key_of(&[cell, &bits[cell.len()..]].concat())
}

// ---- the answers

/// What came of a call: whether its answer is the model's, whether it is 9 and whether it should be and is not, and what
/// the call lost.
struct Answer {
    right: bool,
    nine: bool,
    untold: bool,
    lost: Option<String>,
}

/// The answer to a call that has to tell damage, or need not.
fn answer<T: PartialEq>(found: Result<T, Refused>, expected: Result<T, Refused>, told: bool) -> Answer {
    let nine = found == Err(refusal(9));
    Answer { right: found == expected, nine, untold: told && !nine, lost: None }
}

/// How the calls of one sort were answered: as the model does, with 9, and silently wrong. How many of all these did not
/// tell damage that they had to tell, and how many lost what another leaf answers for.
#[derive(Clone, Copy, Default)]
struct Share {
    right: u64,
    nine: u64,
    wrong: u64,
    untold: u64,
    lost: u64,
}

impl Share {
    /// Counts an answer.
    fn add(&mut self, answer: &Answer) {
        match answer {
            Answer { nine: true, .. } => self.nine += 1,
            Answer { right: true, .. } => self.right += 1,
            _ => self.wrong += 1,
        }
        self.untold += u64::from(answer.untold);
        self.lost += u64::from(answer.lost.is_some());
    }

    /// Prints the line of a kind of damage and a call.
    fn print(&self, kind: &str, call: &str) {
        let all = (self.right + self.nine + self.wrong) as f64;
        let [right, nine, wrong] = [self.right, self.nine, self.wrong].map(|part| part as f64 * 100.0 / all);
        print!("{kind}, {call}: right {right:.1} %, 9 {nine:.1} %, silently wrong {wrong:.1} %; ");
        println!("{} untold, {} lost", self.untold, self.lost);
    }
}

/// A damaged store, and the model of what it held.
struct Damaged<'a> {
    model: &'a Model,
    image: &'a Image,
    cells: &'a Cells,
}

impl Damaged<'_> {
    /// A call of this name with a key.
    fn call(&self, random: &mut Random, name: &str, key: [i32; 4]) -> Answer {
        let mut store = LentStore::new(random, self.image);
        let mut model = self.model.clone();
        let before = Reading::new(self.image, self.cells);
        // 0 is refused whatever the store holds
        let payload = given_payload(random);
        match name {
            "lookup" => answer(store.lookup(key), model.lookup(key), before.lookup_told(key)),
            "query" => self.query(random, &store, key),
            "range" => self.range(random, &store, key),
            "insert" => {
                let told = before.insert_told(key);
                let found = answer(store.insert(key, payload), model.insert(key, payload), told);
                self.contained(found, before, &store.image(), key)
            }
            _ => {
                let told = before.delete_told(key);
                let found = answer(store.delete(key), model.delete(key), told);
                self.contained(found, before, &store.image(), key)
            }
        }
    }

    /// A query with some of the key's values given, and an output of any length, which is left alone by a refusal.
    fn query(&self, random: &mut Random, store: &LentStore, key: [i32; 4]) -> Answer {
        let query = query_of(random.below(1 << self.model.widths().len()), key);
        let length = 12 * random.below(self.model.records.len() + 3) + random.below(12);
        let mut expected = random.bytes(length);
        let mut out = lend_bytes(random, &expected);
        let found = store.query(query, &mut out);
        assert!(found.is_ok() || out.unchanged(), "a refused query writes: {query:?}, {:?}", self.image);
        let told = Reading::new(self.image, self.cells).query_told(query);
        let right = self.model.query(query, &mut expected);
        let answer = answer(found, right, told);
        Answer { right: answer.right && out.slice() == expected, ..answer }
    }

    /// A range between some of the values of the key and of another, and an output as of a query.
    fn range(&self, random: &mut Random, store: &LentStore, key: [i32; 4]) -> Answer {
        let subset = random.below(1 << self.model.widths().len());
        let keys = [key, some_key(random, self.model)];
        let range = range_of(random, self.model, subset, keys);
        let length = 12 * random.below(self.model.records.len() + 3) + random.below(12);
        let mut expected = random.bytes(length);
        let mut out = lend_bytes(random, &expected);
        let found = store.range(range, &mut out);
        assert!(found.is_ok() || out.unchanged(), "a refused range writes: {range:?}, {:?}", self.image);
        let expected_answer = self.model.range(range, &mut expected);
        // 3 and 10 come first
        let told = expected_answer.is_ok() && Reading::new(self.image, self.cells).range_told(range);
        let answer = answer(found, expected_answer, told);
        Answer { right: answer.right && out.slice() == expected, ..answer }
    }

    /// The answer to a change of a key, with what it lost of other leaves if it is accepted.
    fn contained(&self, answer: Answer, before: Reading, image: &Image, key: [i32; 4]) -> Answer {
        if image == self.image {
            return answer;
        }
        let after = Reading::new(image, self.cells);
        let change = Change { before, after, bits: self.model.split_bits(key) };
        let lost = change.others_kept().err().or_else(|| record_lost(&change));
        Answer { lost, ..answer }
    }
}

#[test]
fn damage_of_each_kind() {
    let mut random = Random::new(SEED);
    let mut faults = vec![];
    let mut depths = [0; 13];
    for Kind { name: kind, harm, told_by } in KINDS {
        let mut shares = [Share::default(); CALLS.len()];
        let mut stores = 0;
        while stores < STORES {
            let (model, aged) = aged_store(&mut random);
            let Some(image) = harm(&mut random, &aged) else { continue };
            stores += 1;
            let cells = Cells::of_store(&image);
            let damaged = Damaged { model: &model, image: &image, cells: &cells };
            let harmed = harmed_cells(&cells, &aged.now, &image);
            depths[aged.now.state[DEPTH] as usize] += 1;
            for turn in 0..CALLS.len() * TURNS {
                let (call, key) = (CALLS[turn % CALLS.len()], near_key(&mut random, &model, &harmed));
                let answer = damaged.call(&mut random, call, key);
                shares[turn % CALLS.len()].add(&answer);
                let Answer { right, nine, untold, lost } = answer;
                if untold || lost.is_some() || told_by.contains(&call) && !nine && !right {
                    faults.push(format!("{kind}: {call} {key:?}, untold {untold}, lost {lost:?}: {image:?}"));
                }
            }
        }
        CALLS.iter().zip(&shares).for_each(|(call, share)| share.print(kind, call));
    }
    println!("stores with T from 0 to 12: {depths:?}");
    assert!(faults.is_empty(), "{} faults, the first: {}", faults.len(), faults[0]);
    assert!(depths.iter().all(|&stores| stores > 0), "a T that no store has");
}

#[test]
fn sound_stores() {
    let mut random = Random::new(SEED);
    for _ in 0..STORES {
        let (model, Aged { now, .. }) = aged_store(&mut random);
        let cells = Cells::of_store(&now);
        let sound = Damaged { model: &model, image: &now, cells: &cells };
        for turn in 0..CALLS.len() * TURNS {
            let (call, key) = (CALLS[turn % CALLS.len()], some_key(&mut random, &model));
            let Answer { right, untold, lost, .. } = sound.call(&mut random, call, key);
            assert!(right && !untold && lost.is_none(), "{call} {key:?}, {lost:?}: {now:?}");
        }
    }
}

// ---- the store of document 01's table

/// Its four records, widths 2, 2 and b = 2: T = 3, and the words 3 and 7 are those of the empty leaf 11.
fn table_store(random: &mut Random) -> (Model, Image) {
    let mut model = Model::new(Shape::new(&[2, 2], 2), 4, 4);
    for (i, key) in [[0, 0, 0, 0], [2, 0, 0, 0], [3, 1, 0, 0], [2, 1, 0, 0]].into_iter().enumerate() {
        model.insert(key, 10 + i as u32).expect("accepted");
    }
    let image = Laid::new(random, &model).image;
    assert_eq!((image.state[DEPTH], image.dir[3], image.dir[7]), (3, 0x2_0000, 0x2_0000));
    (model, image)
}

/// The 16 keys of two attributes of two bits.
fn all_keys() -> impl Iterator<Item = [i32; 4]> {
    (0..16).map(|i| [i / 4, i % 4, 0, 0])
}

#[test]
fn word_0_zeroed_is_told_by_every_query_and_range() {
    let mut count = Comparisons::default();
    let mut random = Random::new(SEED);
    let (model, mut image) = table_store(&mut random);
    image.dir[0] = 0;
    let mut store = LentStore::new(&mut random, &image);
    for key in all_keys() {
        let about = format_args!("{key:?}");
        let met = model.split_bits(key).starts_with(&[false; 3]);
        count.same(store.lookup(key), if met { Err(refusal(9)) } else { model.lookup(key) }, about);
        if met {
            count.same(store.insert(key, 1), Err(refusal(9)), about);
            count.same(store.delete(key), Err(refusal(9)), about);
        }
        for subset in 0..4 {
            let content = random.bytes(60);
            let mut out = lend_bytes(&mut random, &content);
            count.same(store.query(query_of(subset, key), &mut out), Err(refusal(9)), about);
            let range = query_of(subset, key).map(|low| low.map(|low| (low, 3)));
            count.same(store.range(range, &mut out), Err(refusal(9)), about);
            count.same(out.unchanged(), true, about);
        }
    }
    count.end(16 * (1 + 4 * 3) + 2 * 2);
}

#[test]
fn an_empty_leaf_with_a_word_zeroed_takes_no_record() {
    let mut count = Comparisons::default();
    let mut random = Random::new(SEED);
    let (model, sound) = table_store(&mut random);
    for a in [3, 7] {
        let mut image = sound.clone();
        image.dir[a] = 0;
        let mut store = LentStore::new(&mut random, &image);
        for key in all_keys().filter(|&key| model.split_bits(key).starts_with(&[true; 2])) {
            count.same(store.insert(key, 1), Err(refusal(9)), format_args!("{key:?}, word {a}"));
        }
        for Record { key, .. } in &model.records {
            count.same(store.lookup(*key), model.lookup(*key), format_args!("{key:?}, word {a}"));
        }
    }
    count.end(2 * (4 + 4));
}

// ---- a page that two leaves name

/// A delete would join its leaf with a sibling whose words name a third leaf's page, and take that leaf's records.
#[test]
fn a_sibling_with_another_leafs_page_is_not_joined() {
    let mut count = Comparisons::default();
    let mut random = Random::new(SEED);
    let (mut stores, mut records) = (0, 0);
    while stores < 100 {
        let model = random_model(&mut random);
        let Laid { mut image, leaves, .. } = Laid::new(&mut random, &model);
        let [leaf, third] = [0; 2].map(|_| &leaves[random.below(leaves.len())]);
        let beside = |placed: &&Placed| leaf.leaf.depth() > 0 && placed.leaf.bits == sibling(&leaf.leaf.bits);
        let Some(other) = leaves.iter().find(beside) else { continue };
        let [Some(g), Some(h), Some(page)] = [leaf, other, third].map(|placed| placed.page) else { continue };
        let both = leaf.leaf.records.len() + third.leaf.records.len() - 1;
        if page == g || page == h || both > model.shape.capacity as usize {
            continue;
        }
        stores += 1;
        other.cells.iter().for_each(|&a| image.dir[a] = word_of(Some(page), other.leaf.depth()));
        let mut store = LentStore::new(&mut random, &image);
        for Record { key, .. } in &leaf.leaf.records {
            count.same(store.delete(*key), Err(refusal(9)), format_args!("{key:?}: {image:?}"));
        }
        for Record { key, .. } in &third.leaf.records {
            count.same(store.lookup(*key), model.lookup(*key), format_args!("{key:?}: {image:?}"));
        }
        records += leaf.leaf.records.len() + third.leaf.records.len();
    }
    count.end(records as u64);
}
