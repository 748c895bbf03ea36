//! How deep a key lies (document 02, request 6): the depths that insert, delete, lookup and number 5 give, on stores
//! whose leaves are known, on random ones, and on damaged ones. Random lists of calls compare them too (`runs`,
//! `replay`, `embedded`), and a number that carries no depth has 0 beside it in every test (`LentStore` compares it).
use mdeh_tests::cells::Cells;
use mdeh_tests::compare::Comparisons;
use mdeh_tests::followed::{Followed, COMPARED};
use mdeh_tests::host::{Refused, Shape};
use mdeh_tests::lent::LentStore;
use mdeh_tests::plain::image::{page_of, word_of, Image, Laid, DEPTH};
use mdeh_tests::plain::leaves::leaf_of;
use mdeh_tests::plain::model::Model;
use mdeh_tests::plain::reading::{sibling, Reading};
use mdeh_tests::plain::refusal::{absent, bad_width, refusal};
use mdeh_tests::plain::samples::{given_payload, random_key, random_model};
use mdeh_tests::random::Random;
use mdeh_tests::shapes::marked;

const SEED: u64 = 0x6d64_6568_2d30_3233;

/// The depth that a lookup gives, of a stored key or beside 5.
fn looked_up(store: &LentStore, key: [i32; 4]) -> Option<u32> {
    match store.lookup(key) {
        Ok((_, _, depth)) | Err(Refused { number: 5, depth, .. }) => Some(depth),
        Err(_) => None,
    }
}

// ---- the proof table

/// "(a) .. words 0–7 have depths 1, 3, 1, 2, 1, 1, 3, 2": those of the keys in their cells, stored or absent.
#[test]
fn the_cells_of_the_proof_table() {
    let mut count = Comparisons::default();
    let mut random = Random::new(SEED);
    let mut followed = Followed::fresh(&mut random, Shape::new(&[2, 2], 2), 8, 3);
    for (key, depth) in [([0, 0, 0, 0], 0), ([2, 0, 0, 0], 0), ([3, 1, 0, 0], 1), ([2, 1, 0, 0], 3)] {
        let answer = followed.insert(&mut count, key, 10);
        count.same(answer, Ok(depth), format_args!("{key:?}"));
    }
    for cell in Cells::new(&[2, 2], 3).all(3) {
        for last in [false, true] {
            let key = followed.model.key_of(&[&cell.bits[..], &[last]].concat());
            let depth = [1, 3, 1, 2, 1, 1, 3, 2][cell.address];
            count.same(followed.model.depth(key), depth, format_args!("{key:?}"));
            count.same(looked_up(&followed.store, key), Some(depth), format_args!("{key:?}"));
        }
    }
    count.end(4 * (COMPARED + 1) + 16 * 2);
}

// ---- divisions and joins of several levels

/// A store of b keys whose first m + 1 split bits are the same, and a last key, not stored yet, that differs from them
/// in split bit m first: with it they are two leaves of depth m + 1. An anchor is a leaf of b other keys with another
/// first bit. There are as many pages as these leaves.
struct Levels {
    followed: Followed,
    last: [i32; 4],
    first: Vec<bool>,
    anchored: bool,
}

impl Levels {
    fn new(random: &mut Random, capacity: u32, m: usize, anchored: bool) -> Levels {
        let shape = marked(random, Shape::new(&[9, 11], capacity));
        let mut model = Model::new(shape, 2 + usize::from(anchored), 12);
        let first: Vec<bool> = (0..m).map(|_| random.below(2) == 1).collect();
        if anchored {
            add(random, &mut model, &sibling(&first[..1]), capacity as usize);
        }
        add(random, &mut model, &[&first[..], &[false]].concat(), capacity as usize);
        let last = key_in(random, &model, &[&first[..], &[true]].concat());
        Levels { followed: Followed::of(random, model), last, first, anchored }
    }

    /// The depth of the leaf that the keys share without the last one.
    fn shallow(&self) -> u32 {
        self.anchored.into()
    }

    /// The stored keys that begin with the first m bits.
    fn shared(&self) -> Vec<[i32; 4]> {
        let records = self.followed.model.records.iter();
        records.filter(|record| record.bits.starts_with(&self.first)).map(|record| record.key).collect()
    }

    /// Inserts the last key.
    fn divide(&mut self, count: &mut Comparisons, random: &mut Random) -> Result<u32, Refused> {
        self.followed.insert(count, self.last, given_payload(random))
    }
}

/// Adds so many records whose keys begin with a string.
fn add(random: &mut Random, model: &mut Model, first: &[bool], records: usize) {
    let all = model.records.len() + records;
    while model.records.len() < all {
        let record = model.record(key_in(random, model, first), given_payload(random));
        if model.records.iter().all(|other| other.key != record.key) {
            model.records.push(record);
        }
    }
}

/// A random key that begins with a string.
fn key_in(random: &mut Random, model: &Model, first: &[bool]) -> [i32; 4] {
    let total = model.widths().iter().sum::<u32>() as usize;
    let rest = (first.len()..total).map(|_| random.below(2) == 1);
    model.key_of(&first.iter().copied().chain(rest).collect::<Vec<_>>())
}

/// The stores of all m below L, of some capacities, with an anchor and without.
fn each_levels(mut each: impl FnMut(&mut Random, Levels)) -> u64 {
    let mut random = Random::new(SEED);
    let mut stores = 0;
    for m in 0..12 {
        for capacity in [1, 2, 3, 8, 16] {
            for anchored in [false, true] {
                // an anchor begins with another first bit
                if m > 0 || !anchored {
                    stores += 1;
                    let levels = Levels::new(&mut random, capacity, m, anchored);
                    each(&mut random, levels);
                }
            }
        }
    }
    stores
}

/// "For insert .. it is the depth of the key's leaf afterwards": before, it was 0 or 1.
#[test]
fn an_insert_that_divides_several_levels() {
    let mut count = Comparisons::default();
    let mut lookups = 0;
    let stores = each_levels(|random, mut levels| {
        let about = format_args!("{:?}", levels.followed.model);
        let before = looked_up(&levels.followed.store, levels.last);
        count.same(before, Some(levels.shallow()), about);
        let deep = levels.first.len() as u32 + 1;
        let answer = levels.divide(&mut count, random);
        count.same(answer, Ok(deep), format_args!("{:?}", levels.followed.model));
        for key in levels.shared() {
            let about = format_args!("{key:?}: {:?}", levels.followed.model);
            count.same(looked_up(&levels.followed.store, key), Some(deep), about);
            lookups += 1;
        }
    });
    count.end(stores * (2 + COMPARED) + lookups);
}

/// "For .. delete it is the depth of the key's leaf afterwards", when all levels are joined.
#[test]
fn a_delete_that_joins_several_levels() {
    let mut count = Comparisons::default();
    let stores = each_levels(|random, mut levels| {
        let _ = levels.divide(&mut count, random);
        let shared = levels.shared();
        let key = shared[random.below(shared.len())];
        let answer = levels.followed.delete(&mut count, key);
        count.same(answer, Ok(levels.shallow()), format_args!("{key:?}: {:?}", levels.followed.model));
    });
    count.end(stores * (2 * COMPARED + 1));
}

// ---- absent keys

/// Lookup and delete give 5 with this depth.
fn compare_absent(count: &mut Comparisons, followed: &mut Followed, key: [i32; 4], depth: u32) {
    let about = format!("{key:?}: {:?}", followed.model);
    count.same(followed.store.lookup(key), Err(absent(depth)), format_args!("{about}"));
    let answer = followed.delete(count, key);
    count.same(answer, Err(absent(depth)), format_args!("{about}"));
}

/// A key that is not stored and begins with a string, with which some stored keys begin.
fn absent_in(random: &mut Random, model: &Model, first: &[bool]) -> [i32; 4] {
    loop {
        let key = key_in(random, model, first);
        if model.records.iter().all(|record| record.key != key) {
            return key;
        }
    }
}

/// Both leaves that the last of several levels is divided into.
#[test]
fn an_absent_key_in_a_divided_region() {
    let mut count = Comparisons::default();
    let stores = each_levels(|random, mut levels| {
        let _ = levels.divide(&mut count, random);
        for bit in [false, true] {
            let leaf = [&levels.first[..], &[bit]].concat();
            let key = absent_in(random, &levels.followed.model, &leaf);
            compare_absent(&mut count, &mut levels.followed, key, leaf.len() as u32);
        }
    });
    count.end(stores * (COMPARED + 2 * (COMPARED + 2)));
}

/// The siblings of the regions on the way down have no records: "the depth of the present leaf that the absent key's
/// split bits begin with", and not 0.
#[test]
fn an_absent_key_in_an_empty_leaf() {
    let mut count = Comparisons::default();
    let mut empty = 0;
    let stores = each_levels(|random, mut levels| {
        let _ = levels.divide(&mut count, random);
        for x in 1 + usize::from(levels.anchored)..=levels.first.len() {
            let leaf = sibling(&levels.first[..x]);
            let key = key_in(random, &levels.followed.model, &leaf);
            compare_absent(&mut count, &mut levels.followed, key, x as u32);
            empty += 1;
        }
    });
    assert!(empty > 300);
    count.end(stores * COMPARED + empty * (COMPARED + 2));
}

#[test]
fn any_key_of_a_store_without_records() {
    let mut count = Comparisons::default();
    let mut random = Random::new(SEED);
    for _ in 0..200 {
        let model = random_model(&mut random);
        let (words, pages) = (1 << model.depth_limit, model.page_limit);
        let mut fresh = Followed::fresh(&mut random, model.shape, words, pages);
        let mut emptied = Followed::of(&mut random, model);
        for key in emptied.model.records.iter().map(|record| record.key).collect::<Vec<_>>() {
            emptied.store.delete(key).expect("accepted");
        }
        emptied.model.records.clear();
        let mut emptied = Followed::new(emptied.store, emptied.model);
        let key = random_key(&mut random, &fresh.model);
        compare_absent(&mut count, &mut fresh, key, 0);
        compare_absent(&mut count, &mut emptied, key, 0);
    }
    count.end(200 * 2 * (COMPARED + 2));
}

// ---- any sound store

/// Every key of up to ten split bits: its depth is that of the leaf which its split bits begin with, and the greatest
/// is T.
#[test]
fn every_key_of_random_stores() {
    let mut count = Comparisons::default();
    let mut random = Random::new(SEED);
    let (mut stores, mut keys) = (0, 0);
    while stores < 300 {
        let model = random_model(&mut random);
        let total = model.widths().iter().sum::<u32>();
        if total > 10 {
            continue;
        }
        stores += 1;
        let store = LentStore::of(&mut random, &model);
        let leaves = model.leaves();
        let mut greatest = 0;
        for code in 0..1u32 << total {
            let bits: Vec<bool> = (0..total).rev().map(|place| code >> place & 1 == 1).collect();
            let key = model.key_of(&bits);
            let depth = leaves[leaf_of(&leaves, &bits)].depth() as u32;
            let about = format_args!("{key:?}: {model:?}");
            count.same(model.depth(key), depth, about);
            count.same(looked_up(&store, key), Some(depth), about);
            greatest = greatest.max(depth);
            keys += 1;
        }
        count.same(greatest, store.state.slice()[DEPTH], format_args!("{model:?}"));
    }
    count.end(keys * 2 + 300);
}

/// An insert gives what the next lookup gives, and a delete, of keys that are stored already, what the next 5 carries.
#[test]
fn a_change_gives_what_the_next_lookup_gives() {
    let mut count = Comparisons::default();
    let mut random = Random::new(SEED);
    let (mut changes, mut divided, mut joined) = (0, 0, 0);
    for _ in 0..400 {
        let model = random_model(&mut random);
        let mut store = LentStore::of(&mut random, &model);
        for _ in 0..20 {
            let (key, payload) = (random_key(&mut random, &model), given_payload(&mut random));
            let about = format_args!("{key:?}: {model:?}");
            let before = looked_up(&store, key).expect("the store is sound");
            match store.insert(key, payload) {
                Ok(depth) => {
                    count.same(store.lookup(key), Ok((payload, 1, depth)), about);
                    divided += u64::from(depth > before + 1);
                }
                Err(refused) if refused == refusal(4) => {
                    let depth = store.delete(key).expect("it is stored");
                    count.same(store.lookup(key), Err(absent(depth)), about);
                    joined += u64::from(depth + 1 < before);
                }
                Err(_) => continue,
            }
            changes += 1;
        }
    }
    println!("{changes} changes, {divided} divide several levels, {joined} join several");
    assert!(divided > 100 && joined > 20);
    count.end(changes);
}

// ---- numbers without a depth

/// The answers of insert, delete and lookup to a key.
fn all_numbers(store: &mut LentStore, key: [i32; 4]) -> [Result<u32, Refused>; 3] {
    [store.insert(key, 7), store.delete(key), store.lookup(key).map(|(_, _, depth)| depth)]
}

/// "no other number carries a depth": 1, 14, 15, 2, 3, 4, 6, 9 and 11 for keys of leaves that lie deep.
#[test]
fn no_other_number_carries_a_depth() {
    let mut count = Comparisons::default();
    let mut sixes = 0;
    let stores = each_levels(|random, mut levels| {
        let _ = levels.divide(&mut count, random);
        let Levels { followed: Followed { mut store, model, .. }, last, first, .. } = levels;
        let about = format_args!("{last:?}: {model:?}");
        count.same(store.insert(last, 0), Err(refusal(11)), about);
        count.same(store.insert(last, 7), Err(refusal(4)), about);
        let mut wrong = last;
        wrong[2] = 1;
        count.same(all_numbers(&mut store, wrong), [Err(refusal(3)); 3], about);
        // b keys share their first L split bits
        if first.len() == 11 {
            sixes += 1;
            let key = absent_in(random, &model, &[&first[..], &[false]].concat());
            count.same(store.insert(key, 7), Err(refusal(6)), about);
        }
        let image = store.image();
        let mut changed = |change: &dyn Fn(&mut Image), refused: Refused| {
            let mut image = image.clone();
            change(&mut image);
            let mut store = LentStore::new(random, &image);
            count.same(all_numbers(&mut store, last), [Err(refused); 3], about);
        };
        changed(&|image| image.state[0] = 5, refusal(1));
        changed(&|image| image.state[2] = 0, bad_width(1));
        changed(&|image| image.state[5] = 17, refusal(15));
        changed(&|image| image.dir.truncate((1 << 12) - 1), refusal(2));
        changed(&|image| image.dir.iter_mut().for_each(|word| *word |= 0xffff), refusal(9));
    });
    count.end(stores * (COMPARED + 2 + 1 + 5) + sixes);
}

/// 7, where no page is free, for keys of empty leaves.
#[test]
fn an_empty_leaf_without_a_free_page() {
    let mut count = Comparisons::default();
    let mut empty = 0;
    let stores = each_levels(|random, mut levels| {
        let _ = levels.divide(&mut count, random);
        for x in 1 + usize::from(levels.anchored)..=levels.first.len() {
            let key = key_in(random, &levels.followed.model, &sibling(&levels.first[..x]));
            let answer = levels.followed.insert(&mut count, key, 7);
            count.same(answer, Err(refusal(7)), format_args!("{key:?}: {:?}", levels.followed.model));
            empty += 1;
        }
    });
    count.end(stores * COMPARED + empty * (COMPARED + 1));
}

// ---- damaged words

/// Each other depth in the words of a leaf: a call on its keys gives 9, or the depth in the word of the key's cell.
#[test]
fn another_depth_in_the_words_of_a_leaf() {
    let mut count = Comparisons::default();
    let mut random = Random::new(SEED);
    let (mut stores, mut given) = (0, [0; 3]);
    while stores < 400 {
        let model = random_model(&mut random);
        let Laid { image: sound, leaves, .. } = Laid::new(&mut random, &model);
        let placed = &leaves[random.below(leaves.len())];
        if placed.leaf.depth() == 0 {
            continue;
        }
        stores += 1;
        let cells = Cells::new(model.widths(), model.depth_limit);
        for depth in (0..16).filter(|&depth| depth != placed.leaf.depth()) {
            let mut image = sound.clone();
            placed.cells.iter().for_each(|&a| image.dir[a] = word_of(page_of(placed.word), depth));
            let stored = placed.leaf.records.first().map(|record| record.key);
            let key = match stored {
                Some(key) if random.below(2) == 0 => key,
                _ => key_in(&mut random, &model, &placed.leaf.bits),
            };
            for (call, given) in given.iter_mut().enumerate() {
                let mut store = LentStore::new(&mut random, &image);
                let answer = match call {
                    0 => store.lookup(key).map(|(_, _, depth)| depth),
                    1 => store.insert(key, 7),
                    _ => store.delete(key),
                };
                let after = store.image();
                let told = Reading::new(&after, &cells).depth_at(key);
                let right = match answer {
                    Ok(depth) | Err(Refused { number: 5, depth, .. }) => depth == told,
                    Err(Refused { number, depth, .. }) => depth == 0 && matches!(number, 4 | 6 | 7 | 9),
                };
                let about = format_args!("call {call}, {key:?}, depth {depth}: {model:?}");
                count.same((right, answer), (true, answer), about);
                *given += u64::from(!matches!(answer, Err(Refused { number: 4 | 6 | 7 | 9, .. })));
            }
        }
    }
    println!("{given:?} lookups, inserts and deletes give a depth");
    assert!(given.iter().all(|&given| given > 100));
    count.end(400 * 15 * 3);
}
