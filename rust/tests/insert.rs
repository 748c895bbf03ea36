//! The call insert: after each one the answer, the state, every word and page in use and the pages that leaves keep are
//! compared with a list scanned in full, and check is asked.
use mdeh_tests::compare::Comparisons;
use mdeh_tests::followed::{Followed, COMPARED};
use mdeh_tests::host::Shape;
use mdeh_tests::plain::refusal::refusal;
use mdeh_tests::plain::samples::{given_payload, random_key, random_model, random_payload};
use mdeh_tests::random::Random;
use mdeh_tests::shapes::marked;

const SEED: u64 = 0x6d64_6568_2d30_3130;

#[test]
fn keys_into_random_stores() {
    let mut count = Comparisons::default();
    let mut random = Random::new(SEED);
    let mut refused = 0;
    for _ in 0..600 {
        let model = random_model(&mut random);
        let mut followed = Followed::of(&mut random, model);
        for _ in 0..20 {
            let key = random_key(&mut random, &followed.model);
            let answer = followed.insert(&mut count, key, random_payload(&mut random));
            refused += u64::from(answer == Err(refusal(11)));
        }
    }
    println!("{refused} refused with 11");
    assert!(refused > 1000);
    count.end(600 * 20 * COMPARED);
}

#[test]
fn long_lists_for_each_capacity() {
    let mut count = Comparisons::default();
    let mut random = Random::new(SEED);
    let (mut accepted, mut refused) = (0, 0);
    for capacity in 1..=16 {
        for widths in [&[1][..], &[5], &[2, 2], &[1, 16], &[16, 1, 1, 1], &[3, 4, 5, 2], &[16; 4]] {
            let shape = marked(&mut random, Shape::new(widths, capacity));
            let mut followed = Followed::fresh(&mut random, shape, 64, 40);
            for _ in 0..120 {
                let key = random_key(&mut random, &followed.model);
                let answer = followed.insert(&mut count, key, random_payload(&mut random));
                accepted += u64::from(answer.is_ok());
                refused += u64::from(answer == Err(refusal(11)));
            }
        }
    }
    println!("{accepted} accepted, {refused} refused with 11");
    assert!(accepted > 4000 && refused > 1000);
    count.end(16 * 7 * 120 * COMPARED);
}

/// Every order of the keys of 2 and 3 bits, with each capacity that they exceed.
#[test]
fn every_order_of_few_keys() {
    let mut count = Comparisons::default();
    let mut random = Random::new(SEED);
    let mut inserts = 0;
    for widths in [&[2][..], &[1, 1], &[3], &[1, 2], &[2, 1]] {
        let total: u32 = widths.iter().sum();
        for capacity in 1..1u32 << (total - 1) {
            for payload in 1..=200 {
                let shape = marked(&mut random, Shape::new(widths, capacity));
                let mut followed = Followed::fresh(&mut random, shape, 1 << total, 1 << total);
                let mut keys: Vec<[i32; 4]> = (0..1 << total)
                    .map(|code| followed.model.key_of(&bits_of(code, total as usize)))
                    .collect();
                random.shuffle(&mut keys);
                for key in keys {
                    let answer = followed.insert(&mut count, key, payload);
                    assert!(answer.is_ok());
                    inserts += 1;
                }
            }
        }
    }
    count.end(inserts * COMPARED);
}

/// A number's lowest bits, the highest first.
fn bits_of(number: u32, count: usize) -> Vec<bool> {
    (0..count).rev().map(|place| number >> place & 1 == 1).collect()
}

// ---- 6 and 7

#[test]
fn keys_that_share_their_first_bits_are_refused_with_6() {
    let mut count = Comparisons::default();
    let mut random = Random::new(SEED);
    let mut refused = 0;
    for depth_limit in 0..=12 {
        for capacity in [1, 2, 5, 16] {
            let shape = Shape::new(&[[16, 16], [3, 16]][random.below(2)], capacity);
            let shape = marked(&mut random, shape);
            let mut followed = Followed::fresh(&mut random, shape, 1 << depth_limit, 60);
            let total = followed.model.widths().iter().sum::<u32>() as usize;
            let first: Vec<bool> = (0..total).map(|_| random.below(2) == 1).collect();
            for _ in 0..2 * capacity + 4 {
                let mut bits: Vec<bool> = (0..total).map(|_| random.below(2) == 1).collect();
                // the same first L bits, now and then one less
                let common = depth_limit - usize::from(depth_limit > 0 && random.below(4) == 0);
                bits[..common].copy_from_slice(&first[..common]);
                let key = followed.model.key_of(&bits);
                let answer = followed.insert(&mut count, key, given_payload(&mut random));
                refused += u64::from(answer == Err(refusal(6)));
            }
        }
    }
    println!("{refused} refused with 6");
    assert!(refused > 100);
    count.end(13 * (6 + 8 + 14 + 36) * COMPARED);
}

#[test]
fn without_a_free_page_a_new_leaf_is_refused_with_7() {
    let mut count = Comparisons::default();
    let mut random = Random::new(SEED);
    let mut refused = 0;
    for pages in 1..=12 {
        for capacity in [1, 2, 3, 8] {
            let shape = marked(&mut random, Shape::new(&[5, 7, 4], capacity));
            let mut followed = Followed::fresh(&mut random, shape, 256, pages);
            for _ in 0..40 {
                let key = random_key(&mut random, &followed.model);
                let answer = followed.insert(&mut count, key, given_payload(&mut random));
                refused += u64::from(answer == Err(refusal(7)));
            }
        }
    }
    println!("{refused} refused with 7");
    assert!(refused > 300);
    count.end(12 * 4 * 40 * COMPARED);
}

/// "(d) A directory of 4 or 7 words: the fourth insert gives 6; 8 words accept it. (e) Two pages and 8 words: 7; two
/// pages and 4 words: 6."
#[test]
fn the_runs_of_the_proof_table() {
    let mut count = Comparisons::default();
    let mut random = Random::new(SEED);
    let [six, seven] = [6, 7].map(|number| Err(refusal(number)));
    for (words, pages, fourth) in [(8, 3, Ok(3)), (4, 3, six), (7, 3, six), (8, 2, seven), (4, 2, six)] {
        let mut followed = Followed::fresh(&mut random, Shape::new(&[2, 2], 2), words, pages);
        for (key, depth) in [([0, 0, 0, 0], 0), ([2, 0, 0, 0], 0), ([3, 1, 0, 0], 1)] {
            assert_eq!(followed.insert(&mut count, key, 10), Ok(depth));
        }
        count.same(followed.extent(), (2, 1), format_args!("(a) after three"));
        let answer = followed.insert(&mut count, [2, 1, 0, 0], 13);
        count.same(answer, fourth, format_args!("{words} words, {pages} pages"));
        let extent = if fourth.is_ok() { (3, 3) } else { (2, 1) };
        count.same(followed.extent(), extent, format_args!("(a) after four"));
        if fourth.is_ok() {
            let words = &followed.store.dir.slice()[..8];
            let depths: Vec<u32> = words.iter().map(|word| word >> 16).collect();
            count.same(depths, vec![1, 3, 1, 2, 1, 1, 3, 2], format_args!("(a) depths"));
            let empty: Vec<usize> = (0..8).filter(|&a| words[a] & 0xffff == 0).collect();
            count.same(empty, vec![3, 7], format_args!("(a) words without a page"));
        }
    }
    count.end(5 * (4 * COMPARED + 3) + 2);
}

// ---- 4

#[test]
fn a_stored_key_is_refused_with_4() {
    let mut count = Comparisons::default();
    let mut random = Random::new(SEED);
    let mut stored = 0;
    for _ in 0..200 {
        let model = random_model(&mut random);
        let keys: Vec<[i32; 4]> = model.records.iter().take(20).map(|record| record.key).collect();
        let mut followed = Followed::of(&mut random, model);
        for key in keys {
            stored += 1;
            let answer = followed.insert(&mut count, key, given_payload(&mut random));
            count.same(answer, Err(refusal(4)), format_args!("{key:?}"));
        }
    }
    count.end(stored * (COMPARED + 1));
}
