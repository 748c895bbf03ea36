//! The records of a page that match a query, written into an output, compared with lists of records, on valid
//! pages and damaged ones.
use mdeh_tests::compare::Comparisons;
use mdeh_tests::pages::{self, Record};
use mdeh_tests::probe::matching::{pattern_of, put_matches, Pattern};
use mdeh_tests::random::Random;
use mdeh_tests::samples::{random_bytes, random_page, Kind, KINDS};
use mdeh_tests::shapes::widths_of_shapes;

const SEED: u64 = 0x6d64_6568_2d30_3038;

/// How many queries are asked of a page.
const QUERIES: u64 = 4;

/// A query that gives each attribute in use a value, or none: mostly one that a record has.
fn random_query(random: &mut Random, used: usize, records: &[Record]) -> [Option<u32>; 4] {
    let mut query = [None; 4];
    for (j, wanted) in query.iter_mut().enumerate().take(used) {
        if random.between(0, 1) == 0 {
            let any = random.number() as u16;
            let near = match records.len() as u64 {
                0 => any,
                n => records[random.between(0, n - 1) as usize].values[j],
            };
            *wanted = Some(u32::from([near, near, near, any][random.between(0, 3) as usize]));
        }
    }
    query
}

#[test]
fn the_records_that_match_are_written_while_whole_ones_fit() {
    let mut count = Comparisons::default();
    let mut random = Random::new(SEED);
    for widths in widths_of_shapes(&mut random) {
        for b in 1..=16 {
            for kind in KINDS {
                let (page, n) = random_page(&mut random, &widths, b, kind);
                let records = &page.records[..n];
                for _ in 0..QUERIES {
                    let query = random_query(&mut random, widths.len(), records);
                    let total = random.between(0, 4) as usize;
                    let bytes = random.between(0, 12 * (b as u64 + 4)) as usize;
                    let before = random_bytes(&mut random, bytes);
                    let about = format_args!(
                        "query {query:?}, from {total} in {bytes} bytes, {n} of {page:?}, {kind:?}"
                    );
                    let mut after = before.clone();
                    let found = put_matches(&page.bytes(), n, pattern_of(query), &mut after, total);
                    let mut expected = before.clone();
                    let all = pages::put_matches(records, query, &mut expected, total);
                    count.same(found, Some(all), about);
                    count.same(after, expected, about);
                }
            }
        }
    }
    count.end(601 * 16 * 6 * QUERIES * 2);
}

#[test]
fn a_full_output_stays_and_records_are_counted_up_to_2_to_the_32() {
    let mut count = Comparisons::default();
    let mut random = Random::new(SEED);
    for b in 1..=16 {
        let (page, _) = random_page(&mut random, &[8, 8], b, Kind::Full);
        let every = pattern_of([None; 4]);
        for total in [b, 1 << 31, (1 << 32) - b] {
            let before = vec![9; 12 * b];
            let mut after = before.clone();
            let about = format_args!("{b} records from {total}");
            count.same(put_matches(&page.bytes(), b, every, &mut after, total), Some(total + b), about);
            count.same(after, before, about);
        }
    }
    count.end(16 * 3 * 2);
}

#[test]
fn patterns_of_queries() {
    let mut count = Comparisons::default();
    let mut random = Random::new(SEED);
    for given in 0u32..1 << 4 {
        for _ in 0..1_000 {
            let query = [0, 1, 2, 3].map(|j| (given >> j & 1 == 1).then(|| random.short(32) as u32));
            // the last four hexadecimal digits for each attribute, the last attribute first
            let digits = |digits: fn(Option<u32>) -> u32| {
                let text: String =
                    query.iter().rev().map(|&value| format!("{:04x}", digits(value) & 0xffff)).collect();
                u64::from_str_radix(&text, 16).expect("16 digits")
            };
            let mask = digits(|value| value.map_or(0, |_| 0xffff));
            let value = digits(|value| value.unwrap_or(0));
            count.same(pattern_of(query), Pattern { mask, value }, format_args!("query {query:?}"));
        }
    }
    count.end(16 * 1_000);
}

#[test]
fn what_a_step_does_not_accept_is_not_called() {
    let mut count = Comparisons::default();
    let every = Pattern { mask: 0, value: 0 };
    for b in 0..=16usize {
        let page = vec![7; 2 + 12 * b];
        let mut out = vec![9; 12 * b];
        for (bytes, n, total) in [
            (&page[..], b + 1, 0),
            (&page[1..], b, 0),
            (&page[..], usize::MAX, 0),
            (&page[..], b, (1 << 32) + 1 - b),
            (&page[..], b, usize::MAX),
        ] {
            let about = format_args!("{n} records from {total}, capacity {b}");
            count.same(put_matches(bytes, n, every, &mut out, total), None, about);
            count.same(&out[..], &vec![9; 12 * b][..], about);
        }
    }
    count.end(17 * 5 * 2);
}
