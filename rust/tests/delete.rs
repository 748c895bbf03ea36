//! The call delete: after each one the answer, the state, every word and page in use and the pages that leaves keep are
//! compared with a list scanned in full, and check is asked.
use mdeh_tests::compare::Comparisons;
use mdeh_tests::followed::{Followed, COMPARED};
use mdeh_tests::host::Shape;
use mdeh_tests::plain::model::Model;
use mdeh_tests::plain::refusal::absent;
use mdeh_tests::plain::samples::{given_payload, random_key, random_model, random_payload};
use mdeh_tests::random::Random;
use mdeh_tests::shapes::marked;

const SEED: u64 = 0x6d64_6568_2d30_3131;

/// A stored key.
fn stored_key(random: &mut Random, model: &Model) -> [i32; 4] {
    model.records[random.below(model.records.len())].key
}

#[test]
fn keys_of_random_stores() {
    let mut count = Comparisons::default();
    let mut random = Random::new(SEED);
    for _ in 0..600 {
        let model = random_model(&mut random);
        let mut followed = Followed::of(&mut random, model);
        for _ in 0..20 {
            let key = match followed.model.records.len() {
                0 => random_key(&mut random, &followed.model),
                _ if random.below(4) == 0 => random_key(&mut random, &followed.model),
                _ => stored_key(&mut random, &followed.model),
            };
            let _ = followed.delete(&mut count, key);
        }
    }
    count.end(600 * 20 * COMPARED);
}

/// Stores filled and then emptied, in random order, for each capacity: T = 0 and every page is free at last.
#[test]
fn all_records_in_turn() {
    let mut count = Comparisons::default();
    let mut random = Random::new(SEED);
    let mut calls = 0;
    for capacity in 1..=16 {
        for widths in [&[1][..], &[5], &[2, 2], &[1, 16], &[16, 1, 1, 1], &[3, 4, 5, 2], &[16; 4]] {
            let shape = marked(&mut random, Shape::new(widths, capacity));
            let mut model = Model::new(shape, 40, 6.min(widths.iter().sum::<u32>() as usize));
            for _ in 0..120 {
                let key = random_key(&mut random, &model);
                let _ = model.insert(key, given_payload(&mut random));
            }
            let mut followed = Followed::of(&mut random, model);
            while !followed.model.records.is_empty() {
                let key = stored_key(&mut random, &followed.model);
                assert!(followed.delete(&mut count, key).is_ok());
                calls += 1;
            }
            assert_eq!(followed.extent(), (0, 0));
        }
    }
    println!("{calls} deletes");
    assert!(calls > 4000);
    count.end(calls * COMPARED);
}

// ---- joins

/// Adds a record with random split bits, the first ones these, unless its key is stored.
fn add_random(random: &mut Random, model: &mut Model, first: &[bool]) {
    let total = model.widths().iter().sum::<u32>() as usize;
    let mut bits: Vec<bool> = (0..total).map(|_| random.below(2) == 1).collect();
    bits[..first.len()].copy_from_slice(first);
    let record = model.record(model.key_of(&bits), random_payload(random));
    if model.records.iter().all(|other| other.key != record.key) {
        model.records.push(record);
    }
}

/// b + 1 keys that first differ at step m are in two leaves of depth m + 1, and their siblings are empty. Deleting any
/// of them joins all m + 1 levels at once.
#[test]
fn leaves_are_joined_over_several_levels() {
    let mut count = Comparisons::default();
    let mut random = Random::new(SEED);
    for m in 0..12 {
        for capacity in 1..=16 {
            let shape = marked(&mut random, Shape::new(&[7, 9], capacity));
            let mut model = Model::new(shape, 3, 12);
            let first: Vec<bool> = (0..m).map(|_| random.below(2) == 1).collect();
            for bit in [false, true] {
                add_random(&mut random, &mut model, &[&first[..], &[bit]].concat());
            }
            while model.records.len() <= capacity as usize {
                add_random(&mut random, &mut model, &first);
            }
            let mut followed = Followed::of(&mut random, model);
            count.same(followed.extent(), (2, m + 1), format_args!("{m}, {capacity}"));
            let key = stored_key(&mut random, &followed.model);
            let _ = followed.delete(&mut count, key);
            count.same(followed.extent(), (1, 0), format_args!("{m}, {capacity}"));
        }
    }
    count.end(12 * 16 * (COMPARED + 2));
}

/// The sibling of the deleted keys' leaf is divided into leaves that have few records: all of them stay, and the
/// emptied leaf's page is free.
#[test]
fn a_divided_sibling_is_not_joined() {
    let mut count = Comparisons::default();
    let mut random = Random::new(SEED);
    let mut stores = 0;
    while stores < 300 {
        let capacity = random.between(2, 16) as usize;
        let shape = marked(&mut random, Shape::new(&[6, 6], capacity as u32));
        let mut model = Model::new(shape, 10, 8);
        while model.records.len() < 2 {
            add_random(&mut random, &mut model, &[false]);
        }
        while model.records.len() < capacity + 3 {
            add_random(&mut random, &mut model, &[true]);
        }
        if !model.holds() {
            continue;
        }
        stores += 1;
        let mut followed = Followed::of(&mut random, model);
        let (pages, t) = followed.extent();
        for key in [0, 1].map(|i| followed.model.records[i].key) {
            let _ = followed.delete(&mut count, key);
        }
        count.same(followed.extent(), (pages - 1, t), format_args!("{capacity}"));
    }
    count.end(300 * (2 * COMPARED + 1));
}

/// "(c) deleting (2,1): T = 1, 2 pages."
#[test]
fn the_run_of_the_proof_table() {
    let mut count = Comparisons::default();
    let mut random = Random::new(SEED);
    let mut model = Model::new(Shape::new(&[2, 2], 2), 3, 3);
    for key in [[0, 0, 0, 0], [2, 0, 0, 0], [3, 1, 0, 0], [2, 1, 0, 0]] {
        model.insert(key, 10).expect("accepted");
    }
    let mut followed = Followed::of(&mut random, model);
    count.same(followed.extent(), (3, 3), format_args!("(a)"));
    let answer = followed.delete(&mut count, [2, 1, 0, 0]);
    count.same(answer, Ok(1), format_args!("(c)"));
    count.same(followed.extent(), (2, 1), format_args!("(c)"));
    count.end(COMPARED + 3);
}

// ---- 5

#[test]
fn an_absent_key_is_refused_with_5() {
    let mut count = Comparisons::default();
    let mut random = Random::new(SEED);
    for _ in 0..100 {
        let mut model = random_model(&mut random);
        let keys = [(); 10].map(|_| random_key(&mut random, &model));
        model.records.retain(|record| !keys.contains(&record.key));
        let mut followed = Followed::of(&mut random, model);
        for key in keys {
            let answer = followed.delete(&mut count, key);
            count.same(answer, Err(absent(followed.model.depth(key))), format_args!("{key:?}"));
        }
    }
    count.end(100 * 10 * (COMPARED + 1));
}
