//! The place of a key in a page, and that of the first record with bit 1 at a split step, compared with
//! strings of split bits, on valid pages and damaged ones.
use mdeh_tests::compare::Comparisons;
use mdeh_tests::pages::{split_bits, unpacked, Record};
use mdeh_tests::probe::keys::{find, first_one};
use mdeh_tests::probe::Widths;
use mdeh_tests::random::Random;
use mdeh_tests::reference::steps;
use mdeh_tests::samples::{random_page, wanted_key, KINDS};
use mdeh_tests::shapes::widths_of_shapes;

const SEED: u64 = 0x6d64_6568_2d30_3037;

/// How many keys, and how many steps, are looked for in a page.
const KEYS: u64 = 6;
const STEPS: u64 = 3;

/// Widths that the steps accept.
fn fitting(widths: &[u32]) -> Widths {
    Widths::new(widths).expect("no width is above 16")
}

/// Whether a place is told from the records beside it: the record there has the key; or the record just
/// before the place stands before the key, and the record at it behind.
fn is_placed(bits: &[bool], all: &[Vec<bool>], place: Result<usize, usize>) -> bool {
    match place {
        Ok(i) => i < all.len() && all[i] == bits,
        Err(i) => i <= all.len() && (i == 0 || *all[i - 1] < *bits) && (i == all.len() || *bits < *all[i]),
    }
}

#[test]
fn the_place_of_a_key_in_pages_of_every_kind() {
    let mut count = Comparisons::default();
    let mut random = Random::new(SEED);
    for widths in widths_of_shapes(&mut random) {
        for b in 1..=16 {
            for kind in KINDS {
                let (page, n) = random_page(&mut random, &widths, b, kind);
                let bytes = page.bytes();
                let records = &page.records[..n];
                let all: Vec<_> = records.iter().map(|record| split_bits(&widths, record.values)).collect();
                for _ in 0..KEYS {
                    let key = wanted_key(&mut random, &widths, records);
                    let bits = split_bits(&widths, unpacked(key));
                    let about = format_args!("widths {widths:?}, key {key:#x}, {n} of {page:?}, {kind:?}");
                    let place = find(&bytes, n, &fitting(&widths), key).expect("the page has n records");
                    count.same(is_placed(&bits, &all, place), true, about);
                    if kind.is_sorted() {
                        // the number of keys before this one tells the place
                        let before = all.iter().filter(|other| **other < bits).count();
                        let expected = if all.contains(&bits) { Ok(before) } else { Err(before) };
                        count.same(place, expected, about);
                    }
                }
            }
        }
    }
    // six kinds, three of them in split order
    count.end(601 * 16 * KEYS * (6 + 3));
}

#[test]
fn the_first_record_with_bit_1_at_a_split_step() {
    let mut count = Comparisons::default();
    let mut random = Random::new(SEED);
    for widths in widths_of_shapes(&mut random) {
        let steps = steps(&widths);
        for b in 1..=16 {
            for kind in KINDS {
                let (page, n) = random_page(&mut random, &widths, b, kind);
                for _ in 0..STEPS {
                    let t = random.between(0, steps.len() as u64 - 1) as usize;
                    let (k, j) = steps[t];
                    let has_bit = |record: &Record| split_bits(&widths, record.values)[t];
                    let expected = page.records[..n].iter().position(has_bit).unwrap_or(n);
                    let g = 4 * u64::from(k) + j as u64;
                    let about = format_args!("widths {widths:?}, step {t}, {n} of {page:?}, {kind:?}");
                    count.same(first_one(&page.bytes(), n, &fitting(&widths), g), Some(expected), about);
                }
            }
        }
    }
    count.end(601 * 16 * 6 * STEPS);
}

#[test]
fn what_a_step_does_not_accept_is_not_called() {
    let mut count = Comparisons::default();
    let widths = [3, 0, 16];
    let fit = fitting(&widths);
    for b in 0..=16usize {
        let page = vec![7; 2 + 12 * b];
        let about = format_args!("capacity {b}");
        for n in [b + 1, usize::MAX / 12, usize::MAX] {
            count.same((find(&page, n, &fit, 0), first_one(&page, n, &fit, 0)), (None, None), about);
        }
        let short = &page[1..];
        count.same((find(short, b, &fit, 0), first_one(short, b, &fit, 0)), (None, None), about);
        // bit 3 of attribute 0, bit 0 of the attributes without bits, past all pairs
        for g in [12, 1, 3, 64, 66, u64::MAX] {
            count.same(first_one(&page, b, &fit, g), None, about);
        }
    }
    count.end(17 * (3 + 1 + 6));
}
