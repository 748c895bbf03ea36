//! The steps on one page and on the lent pages, compared with lists of records, on valid pages and damaged
//! ones. Each page is a part of a longer slice; bytes before and behind it have to stay.
use mdeh_tests::compare::Comparisons;
use mdeh_tests::pages::{self, packed, Page};
use mdeh_tests::probe::records::{carry, count, first_free, insert_at, key_at, payload_at, remove_at, Carry};
use mdeh_tests::random::Random;
use mdeh_tests::samples::{random_bytes, random_page, random_record, Kind, KINDS};
use mdeh_tests::shapes::widths_of_shapes;
use std::fmt::{self, Arguments, Display, Formatter};
use std::ops::Range;

const SEED: u64 = 0x6d64_6568_2d30_3036;

/// A page of each kind, for all b from 1 to 16, of each of 601 shapes.
fn for_all_pages(random: &mut Random, mut test: impl FnMut(&mut Random, &Sample)) {
    for widths in widths_of_shapes(random) {
        for b in 1..=16 {
            for kind in KINDS {
                let (page, n) = random_page(random, &widths, b, kind);
                test(random, &Sample { widths: &widths, b, kind, page, n });
            }
        }
    }
}
const PAGES: u64 = 601 * 16 * 6;

/// A page of a shape, and the number of its records.
struct Sample<'a> {
    widths: &'a [u32],
    b: usize,
    kind: Kind,
    page: Page,
    n: usize,
}

impl Display for Sample<'_> {
    fn fmt(&self, f: &mut Formatter) -> fmt::Result {
        let Sample { widths, b, kind, page, n } = self;
        write!(f, "{n} records, {page:?}, {kind:?}, capacity {b}, widths {widths:?}")
    }
}

/// Bytes between random others, and where they are.
fn between_guards(random: &mut Random, bytes: &[u8]) -> (Vec<u8>, Range<usize>) {
    let before = random.between(0, 40) as usize;
    let behind = random.between(0, 40) as usize;
    let lent = [random_bytes(random, before), bytes.to_vec(), random_bytes(random, behind)].concat();
    (lent, before..before + bytes.len())
}

/// Compares the bytes after a step with those expected at `part` and those from before elsewhere: three
/// comparisons.
fn compare_lent(
    count: &mut Comparisons,
    after: &[u8],
    before: &[u8],
    part: &Range<usize>,
    expected: &[u8],
    about: Arguments,
) {
    count.same(&after[..part.start], &before[..part.start], about);
    count.same(&after[part.clone()], expected, about);
    count.same(&after[part.end..], &before[part.end..], about);
}

// ---- one page

#[test]
fn counts_keys_and_payloads_are_read() {
    let mut counted = Comparisons::default();
    let mut random = Random::new(SEED);
    for_all_pages(&mut random, |random, sample| {
        let (lent, part) = between_guards(random, &sample.page.bytes());
        let page = &lent[part];
        counted.same(count(page), Some(sample.page.count.into()), format_args!("{sample}"));
        for i in 0..sample.b {
            let about = format_args!("record {i} of {sample}");
            let record = sample.page.records[i];
            counted.same(key_at(page, i), Some(packed(record.values)), about);
            counted.same(payload_at(page, i), Some(record.payload), about);
        }
    });
    // two comparisons for each record, of 1 to 16 in a page
    counted.end(PAGES + 2 * 136 * 601 * 6);
}

#[test]
fn a_record_is_inserted_and_no_other_byte_changes() {
    let mut counted = Comparisons::default();
    let mut random = Random::new(SEED);
    for_all_pages(&mut random, |random, sample| {
        let n = sample.n.min(sample.b - 1);
        for i in [0, random.between(0, n as u64) as usize, n] {
            let record = random_record(random);
            let (before, part) = between_guards(random, &sample.page.bytes());
            let mut after = before.clone();
            insert_at(&mut after[part.clone()], i, n, packed(record.values), record.payload)
                .expect("the page has room");
            let mut expected = sample.page.clone();
            expected.insert(i, n, record);
            let about = format_args!("{record:?} at {i} of {n} of {sample}");
            compare_lent(&mut counted, &after, &before, &part, &expected.bytes(), about);
        }
    });
    counted.end(PAGES * 3 * 3);
}

#[test]
fn a_record_is_removed_and_no_other_byte_changes() {
    let mut counted = Comparisons::default();
    let mut random = Random::new(SEED);
    for_all_pages(&mut random, |random, sample| {
        let n = sample.n.max(1);
        for i in [0, random.between(0, n as u64 - 1) as usize, n - 1] {
            let (before, part) = between_guards(random, &sample.page.bytes());
            let mut after = before.clone();
            remove_at(&mut after[part.clone()], i, n).expect("the page has the record");
            let mut expected = sample.page.clone();
            expected.remove(i, n);
            let about = format_args!("record {i} of {n} of {sample}");
            compare_lent(&mut counted, &after, &before, &part, &expected.bytes(), about);
        }
    });
    counted.end(PAGES * 3 * 3);
}

// ---- several pages

/// From 1 to 5 pages of random kinds, and bytes behind them that are no whole page.
fn random_pages(random: &mut Random, widths: &[u32], b: usize) -> (Vec<Page>, Vec<u8>) {
    let pages: Vec<Page> = (0..random.between(1, 5))
        .map(|_| {
            let kind = KINDS[random.between(0, 5) as usize];
            random_page(random, widths, b, kind).0
        })
        .collect();
    let behind = random.between(0, 13) as usize;
    let bytes = pages.iter().flat_map(Page::bytes).chain(random_bytes(random, behind)).collect();
    (pages, bytes)
}

#[test]
fn records_are_carried_between_two_pages_and_no_other_byte_changes() {
    let mut counted = Comparisons::default();
    let mut random = Random::new(SEED);
    for widths in widths_of_shapes(&mut random) {
        for b in 1..=16 {
            for turn in 0..4 {
                let (pages, lent) = random_pages(&mut random, &widths, b);
                let last = pages.len() as u64 - 1;
                let [p, q] = [(); 2].map(|_| random.between(0, last) as usize);
                let n = random.between(0, b as u64) as usize;
                // a page divided, two joined, any
                let m = if turn == 1 { 0 } else { random.between(0, n as u64) as usize };
                let j = if turn == 0 { 0 } else { random.between(0, (b - (n - m)) as u64) as usize };
                let (before, part) = between_guards(&mut random, &lent);
                let mut after = before.clone();
                let carried = Carry { p, m, n, q, j };
                carry(&mut after[part.clone()], b, carried).expect("both pages are lent");
                let about = format_args!("{carried:?}, capacity {b}, {pages:?}");
                let mut expected = pages.clone();
                pages::carry(&mut expected, p, m, n, q, j);
                let mut bytes: Vec<u8> = expected.iter().flat_map(Page::bytes).collect();
                bytes.extend(&lent[bytes.len()..]);
                compare_lent(&mut counted, &after, &before, &part, &bytes, about);
            }
        }
    }
    counted.end(601 * 16 * 4 * 3);
}

#[test]
fn the_first_free_page_is_found() {
    let mut counted = Comparisons::default();
    let mut random = Random::new(SEED);
    for b in 1..=16 {
        for _ in 0..2_000 {
            let mut all = Vec::new();
            for _ in 0..random.between(0, 12) {
                let (mut page, _) = random_page(&mut random, &[16, 16], b, Kind::RandomBytes);
                page.count = [0, 1, 256, page.count][random.between(0, 3) as usize];
                all.push(page);
            }
            let behind = random.between(0, 13) as usize;
            let lent: Vec<u8> =
                all.iter().flat_map(Page::bytes).chain(random_bytes(&mut random, behind)).collect();
            let n = random.between(0, all.len() as u64) as usize;
            let about = format_args!("capacity {b}, first {n} of {all:?}");
            counted.same(first_free(&lent, b, n), Some(pages::first_free(&all[..n])), about);
        }
        let size = 2 + 12 * b;
        for free in [0, 1, 255, 256, 4_095, 4_096] {
            let mut lent = vec![1; 4_096 * size];
            lent[size * free..].iter_mut().take(2).for_each(|byte| *byte = 0);
            let about = format_args!("4,096 pages of capacity {b}, page {free} is free");
            counted.same(first_free(&lent, b, 4_096), Some(free), about);
        }
    }
    counted.end(16 * (2_000 + 6));
}

// ---- what is not accepted

#[test]
fn what_a_step_does_not_accept_is_not_called() {
    let mut counted = Comparisons::default();
    for length in [0, 1] {
        counted.same(count(&vec![0; length]), None, format_args!("{length} bytes"));
    }
    for b in 1..=16usize {
        let bytes = vec![7; 2 + 12 * b];
        let short = &bytes[1..];
        let about = format_args!("capacity {b}");
        for i in [b, b + 1, usize::MAX / 12, usize::MAX] {
            counted.same((key_at(&bytes, i), payload_at(&bytes, i)), (None, None), about);
        }
        counted.same((key_at(short, b - 1), payload_at(short, b - 1)), (None, None), about);
        let mut page = bytes.clone();
        for (i, n) in [(0, b), (b, b - 1), (0, usize::MAX), (usize::MAX, usize::MAX)] {
            counted.same(insert_at(&mut page, i, n, 0, 0), None, about);
        }
        counted.same(insert_at(&mut page[1..], 0, b - 1, 0, 0), None, about);
        for (i, n) in [(b, b), (0, 0), (0, b + 1), (0, usize::MAX)] {
            counted.same(remove_at(&mut page, i, n), None, about);
        }
        counted.same(remove_at(&mut page[1..], 0, b), None, about);
        for (p, m, n, q, j) in [
            (1, 0, b, 0, 0),
            (0, 0, b, 1, 0),
            (usize::MAX, 0, b, 0, 0),
            (0, 0, b, 4_096, 0),
            (0, b, b - 1, 0, 0),
            (0, 0, b + 1, 0, 0),
            (0, 0, b, 0, 1),
            (0, b, b, 0, b + 1),
            (0, b, b, 0, usize::MAX),
        ] {
            counted.same(carry(&mut page, b, Carry { p, m, n, q, j }), None, about);
        }
        counted.same(carry(&mut page[1..], b, Carry { p: 0, m: 0, n: b, q: 0, j: 0 }), None, about);
        counted.same(page, bytes.clone(), about);
        for (length, n) in [(bytes.len(), 2), (bytes.len() - 1, 1), (0, 1), (bytes.len(), usize::MAX)] {
            counted.same(first_free(&bytes[..length], b, n), None, about);
        }
    }
    let mut lent = vec![1; 4_097 * 206];
    counted.same(first_free(&lent, 16, 4_097), None, format_args!("4,097 pages"));
    counted.same(first_free(&lent, 17, 1), None, format_args!("capacity 17"));
    let whole = Carry { p: 0, m: 0, n: 1, q: 1, j: 0 };
    counted.same(carry(&mut lent, 17, whole), None, format_args!("capacity 17"));
    counted.end(2 + 16 * (5 + 5 + 5 + 10 + 1 + 4) + 3);
}
