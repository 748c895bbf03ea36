//! Stores that hold payloads of 0: "Stores that already hold such payloads stay sound and are listed as before"
//! (document 02, request 2). The zeros are written over payloads in the bytes of the pages. Each call is then compared
//! with a list scanned in full that has them, and so are all words and pages in use after a change.
use mdeh_tests::compare::Comparisons;
use mdeh_tests::followed::{Followed, COMPARED};
use mdeh_tests::host::Shape;
use mdeh_tests::lent::lend_bytes;
use mdeh_tests::plain::image::Image;
use mdeh_tests::plain::judge::judge;
use mdeh_tests::plain::refusal::refusal;
use mdeh_tests::plain::samples::{given_payload, query_of, random_key, range_of};
use mdeh_tests::random::Random;
use mdeh_tests::shapes::marked;

const SEED: u64 = 0x6d64_6568_2d30_3230;

/// How many stores `each_store` makes.
const STORES: u64 = 6 * 3 * 3 * 3;

/// Stores with few records up to full ones, of which about an eighth, about half, or all get payload 0. The keys of
/// these come with the store.
fn each_store(mut test: impl FnMut(&mut Random, Followed, Vec<[i32; 4]>)) {
    let mut random = Random::new(SEED);
    for widths in [&[1][..], &[5], &[2, 2], &[1, 16], &[3, 4, 5, 2], &[16; 4]] {
        for capacity in [1, 2, 16] {
            for inserts in [2, 20, 200] {
                for share in [1, 4, 8] {
                    let shape = marked(&mut random, Shape::new(widths, capacity));
                    let mut followed = Followed::fresh(&mut random, shape, 64, 40);
                    fill(&mut random, &mut followed, inserts);
                    let mut zeros = followed.clear_payloads(|| random.below(8) < share);
                    if zeros.is_empty() {
                        zeros = followed.clear_payloads(|| true);
                    }
                    test(&mut random, followed, zeros);
                }
            }
        }
    }
}

/// Inserts keys with payloads other than 0; those that are refused are left out. The comparisons are not counted.
fn fill(random: &mut Random, followed: &mut Followed, inserts: usize) {
    let mut count = Comparisons::default();
    for _ in 0..inserts {
        let key = random_key(random, &followed.model);
        let _ = followed.insert(&mut count, key, given_payload(random));
    }
}

/// The page and the place where a key's record stands.
fn place(image: &Image, pages: usize, key: [i32; 4]) -> Option<(usize, usize)> {
    let places = (0..pages).flat_map(|g| (0..image.count(g)).map(move |i| (g, i)));
    places.into_iter().find(|&(g, i)| image.content(g, i).0 == key)
}

#[test]
fn check_says_yes() {
    let mut count = Comparisons::default();
    each_store(|_, followed, zeros| {
        let about = format_args!("{zeros:?}: {:?}", followed.model);
        count.same(judge(&followed.store.image()), Ok(true), about);
        count.same(followed.store.check(), Ok(true), about);
    });
    count.end(STORES * 2);
}

#[test]
fn a_lookup_gives_0_and_1_read() {
    let mut count = Comparisons::default();
    let mut lookups = 0;
    each_store(|random, followed, zeros| {
        let about = format_args!("{zeros:?}: {:?}", followed.model);
        for &key in &zeros {
            let depth = followed.model.depth(key);
            count.same(followed.store.lookup(key), Ok((0, 1, depth)), about);
        }
        let near: Vec<[i32; 4]> = (0..20).map(|_| random_key(random, &followed.model)).collect();
        let stored = followed.model.records.iter().map(|record| record.key);
        for key in stored.chain(near) {
            count.same(followed.store.lookup(key), followed.model.lookup(key), about);
        }
        lookups += zeros.len() + followed.model.records.len() + 20;
    });
    count.end(lookups as u64);
}

/// Each subset of given attributes at the values of records with payload 0 and at others, into outputs of any length.
#[test]
fn queries_and_ranges_list_them() {
    let mut count = Comparisons::default();
    let (mut calls, mut listed) = (0, 0);
    each_store(|random, followed, zeros| {
        let Followed { store, model, .. } = &followed;
        for subset in 0..1 << model.widths().len() {
            for key in [zeros[random.below(zeros.len())], random_key(random, model)] {
                let most = 12 * model.records.len() + 30;
                for length in [0, 11, 12, random.below(most), most] {
                    calls += 1;
                    let query = query_of(subset, key);
                    let mut expected = random.bytes(length);
                    let mut out = lend_bytes(random, &expected);
                    let about = format_args!("{query:?}, {length} bytes: {model:?}");
                    let found = store.query(query, &mut out);
                    count.same(found, model.query(query, &mut expected), about);
                    count.same(out.slice(), &expected[..], about);
                    let written = found.map_or(0, |(written, ..)| written as usize);
                    let payloads = out.slice().chunks_exact(12).take(written).map(|record| &record[8..]);
                    listed += payloads.filter(|payload| payload == &[0; 4]).count();
                    let keys = [key, random_key(random, model)];
                    let range = range_of(random, model, subset, keys);
                    let about = format_args!("{range:?}, {length} bytes: {model:?}");
                    let found = store.range(range, &mut out);
                    count.same(found, model.range(range, &mut expected), about);
                    count.same(out.slice(), &expected[..], about);
                }
            }
        }
    });
    println!("{listed} records with payload 0 listed");
    assert!(listed > 10_000);
    count.end(calls * 4);
}

/// First the records with payload 0, then the others: T = 0 and every page is free at last.
#[test]
fn deletes_remove_them_and_join_leaves() {
    let mut count = Comparisons::default();
    let (mut deletes, mut joined) = (0, 0);
    each_store(|random, mut followed, mut zeros| {
        random.shuffle(&mut zeros);
        let others = followed.model.records.iter().map(|record| record.key);
        let others: Vec<[i32; 4]> = others.filter(|key| !zeros.contains(key)).collect();
        for key in zeros.into_iter().chain(others) {
            let leaves = followed.model.leaves().len();
            assert!(followed.delete(&mut count, key).is_ok());
            joined += u64::from(followed.model.leaves().len() < leaves);
            deletes += 1;
        }
        assert_eq!(followed.extent(), (0, 0));
    });
    println!("{deletes} deletes, {joined} with a join");
    assert!(joined > 100);
    count.end(deletes * COMPARED);
}

/// Other keys with payloads other than 0: leaves are divided, and records with payload 0 move to another page.
#[test]
fn inserts_beside_them_divide_leaves() {
    let mut count = Comparisons::default();
    let (mut inserts, mut divided, mut moved) = (0, 0, 0);
    each_store(|random, mut followed, zeros| {
        let pages = followed.model.page_limit;
        for _ in 0..20 {
            let key = random_key(random, &followed.model);
            let (leaves, before) = (followed.model.leaves().len(), followed.store.image());
            let _ = followed.insert(&mut count, key, given_payload(random));
            divided += u64::from(followed.model.leaves().len() > leaves);
            let after = followed.store.image();
            for &key in &zeros {
                let [old, new] =
                    [&before, &after].map(|image| place(image, pages, key).expect("it is stored"));
                assert_eq!(after.content(new.0, new.1), (key, 0));
                moved += u64::from(old.0 != new.0);
            }
            inserts += 1;
        }
    });
    println!("{divided} of {inserts} divide leaves, {moved} records with payload 0 get another page");
    assert!(divided > 100 && moved > 100);
    count.end(inserts * COMPARED);
}

/// "even when its key is stored already": 11 for payload 0, and 4 for any other.
#[test]
fn their_keys_are_refused() {
    let mut count = Comparisons::default();
    let mut keys = 0;
    each_store(|random, mut followed, zeros| {
        for key in zeros {
            keys += 1;
            for (payload, number) in [(0, 11), (given_payload(random), 4)] {
                let answer = followed.insert(&mut count, key, payload);
                count.same(answer, Err(refusal(number)), format_args!("{key:?}, {payload}"));
            }
        }
    });
    count.end(keys * (2 * COMPARED + 2));
}
