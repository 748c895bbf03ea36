//! The steps on one page.
use crate::inputs::shown;
use crate::measure::Table;
use crate::plain;
use crate::step::Step;
use mdeh_tests::pages::{packed, Page, Record};
use mdeh_tests::probe::{keys, matching, Widths};
use mdeh_tests::random::Random;
use mdeh_tests::samples::{distinct_keys, random_record};

/// How many pages a row has, and how many records each of them has: as many as it has room for.
const PAGES: usize = 1_250;
const RECORDS: usize = 16;

/// The widths of the shapes.
const SHAPES: [&[u32]; 2] = [&[16, 16], &[4, 8, 12, 16]];

pub fn rows(table: &mut Table, random: &mut Random) {
    for widths in SHAPES {
        for hit in [true, false] {
            find(table, random, widths, hit);
        }
    }
    matches(table, random);
}

/// A full page of these keys.
fn full_page(random: &mut Random, keys: &[[u16; 4]]) -> Vec<u8> {
    let records = keys.iter().map(|&values| Record { values, ..random_record(random) }).collect();
    Page { count: RECORDS as u16, records }.bytes()
}

/// The keys of full pages of random records, or others, in random order.
fn find(table: &mut Table, random: &mut Random, widths: &'static [u32], hit: bool) {
    let mut inputs = Vec::new();
    for _ in 0..PAGES {
        // every other key is a record's
        let all = distinct_keys(random, widths, 2 * RECORDS);
        let stored: Vec<_> = all.iter().copied().skip(1).step_by(2).collect();
        let page: &'static [u8] = full_page(random, &stored).leak();
        let keys = all.iter().copied().skip(usize::from(hit)).step_by(2);
        inputs.extend(keys.map(|values| (page, packed(values))));
    }
    random.shuffle(&mut inputs);
    let inputs: &'static [_] = inputs.leak();
    let (proved, plain) = (Widths::new(widths).unwrap(), plain::Widths::new(widths).unwrap());
    let place = |place: Result<usize, usize>| place.map_or_else(|i| i as u64, |i| 100 + i as u64);
    table.pair(
        Step::call(format!("find in a full page, {}", if hit { "hit" } else { "miss" }), shown(widths)),
        inputs,
        (),
        move |&(page, key), _| place(keys::find(page, RECORDS, &proved, key).unwrap()),
        move |&(page, key), _| place(plain::find(page, RECORDS, &plain, key).unwrap()),
    );
}

/// Queries that give a value, which a quarter of the records has.
fn matches(table: &mut Table, random: &mut Random) {
    let mut inputs = Vec::new();
    for _ in 0..PAGES {
        let keys = [(); RECORDS].map(|_| [0; 4].map(|_| random.between(0, 3) as u16));
        let query = [Some(random.between(0, 3) as u32), None, None, None];
        let page: &'static [u8] = full_page(random, &keys).leak();
        inputs.push((page, matching::pattern_of(query), plain::Pattern::new(query).unwrap()));
    }
    let inputs: &'static [_] = inputs.leak();
    table.pair(
        Step::each("matching a page, one value given", shown(&[16; 4]), "record", RECORDS),
        inputs,
        vec![0; 12 * RECORDS],
        |&(page, pattern, _), out| matching::put_matches(page, RECORDS, pattern, out, 0).unwrap() as u64,
        |(page, _, pattern), out| plain::put_matches(page, RECORDS, pattern, out, 0).unwrap() as u64,
    );
}
