//! What a store shows, beside document 01's table and the plain model.
mod common;

use common::{picture, random_picture, random_store, shape_line, PAGES, STORES};
use mdeh::{Refusal, Shape};
use mdeh_tests::cells::Cells;
use mdeh_tests::plain::model::Model;
use mdeh_tests::random::Random;
use mdeh_view::picture::{Bits, Picture};
use mdeh_view::session::Session;

const SEED: u64 = 0x7669_6577_2d70_6963;

/// Document 01's example.
const RUN: &str = include_str!("../../crates/stock/stdin");

/// The bits of a string, the first one first.
fn bits(string: Bits) -> Vec<bool> {
    (0..string.count).map(|step| string.bit(step) == 1).collect()
}

#[test]
fn table_entry_a() {
    let picture = picture(RUN);
    let depths: Vec<usize> = picture.cells.iter().map(|cell| picture.leaves[cell.leaf].depth()).collect();
    assert_eq!((picture.depth, picture.pages_used()), (3, 3));
    assert_eq!(depths, [1, 3, 1, 2, 1, 1, 3, 2]);
    let without: Vec<usize> =
        (0..8).filter(|&address| picture.leaves[picture.cells[address].leaf].page.is_none()).collect();
    assert_eq!(without, [3, 7]);
}

/// The picture agrees with itself: counts, cells, pages, regions, the state's tally.
fn consistent(picture: &Picture) {
    let mut cells = vec![0; picture.leaves.len()];
    picture.cells.iter().for_each(|cell| cells[cell.leaf] += 1);
    let mut tally = vec![0; picture.depth + 1];
    let mut pages = vec![false; picture.page_limit];
    for (leaf, cells) in picture.leaves.iter().zip(cells) {
        assert_eq!(cells, 1 << (picture.depth - leaf.depth()), "leaf {}", leaf.bits);
        assert_eq!(leaf.page.is_some(), !leaf.records.is_empty());
        assert!(leaf.records.len() <= picture.capacity());
        tally[leaf.depth()] += 1;
        let region = picture.region(leaf.bits);
        for record in &leaf.records {
            assert_eq!(picture.split_bits(record).first(leaf.depth()), leaf.bits);
            assert!(picture.matches(record, &region), "{record:?} of leaf {}", leaf.bits);
        }
        let keys: u64 = region.iter().map(|&(low, high)| u64::from(high - low) + 1).product();
        let steps = picture.widths().iter().sum::<u32>() - leaf.depth() as u32;
        assert_eq!(u128::from(keys), 1 << steps, "leaf {}", leaf.bits);
        leaf.page.iter().for_each(|&page| assert!(!std::mem::replace(&mut pages[page], true)));
    }
    assert_eq!(tally, picture.tally);
    assert_eq!(picture.pages().iter().flatten().count(), picture.pages_used());
}

#[test]
fn random_stores() {
    let mut random = Random::new(SEED);
    let pictures = STORES.map(|store| random_picture(&mut random, store));
    pictures.iter().for_each(consistent);
    assert_eq!(pictures.each_ref().map(|picture| picture.depth), [12, 10, 12, 12, 12]);
}

/// The picture of a run of random puts and cuts has the plain model's leaves, and cells where the doubling array has
/// them, with these marks of signed attributes.
fn compare(random: &mut Random, signs: u32, widths: &[u32], capacity: u32, calls: usize) {
    let mut session = Session::signed(signs);
    session.take(shape_line(widths, capacity).as_bytes()).expect("the shape is within its bounds");
    let shape = Shape { signs, ..Shape::new(widths, capacity) };
    let mut model = Model::fresh(shape, 4096, 32768).expect("the same Fresh");
    for payload in 1..=calls as u32 {
        let mut key = [0; 4];
        for (j, &width) in widths.iter().enumerate() {
            key[j] = shape.values(j).start() + random.short(width) as i32;
        }
        let values: Vec<String> = key[..widths.len()].iter().map(i32::to_string).collect();
        let (line, expected) = match random.below(3) {
            0 => (format!("cut {}", values.join(" ")), model.delete(key)),
            _ => (format!("put {} {payload}", values.join(" ")), model.insert(key, payload)),
        };
        assert_eq!(session.take(line.as_bytes()).is_ok(), expected.is_ok(), "{line}");
    }
    let picture = Picture::of(&session.store().expect("there is a store"));
    consistent(&picture);
    let shown = picture.leaves.iter().map(|leaf| {
        (bits(leaf.bits), leaf.records.iter().map(|record| (record.values, record.payload)).collect())
    });
    let leaves = model.leaves().into_iter().map(|leaf| {
        (leaf.bits, leaf.records.iter().map(|record| (record.key, record.payload)).collect::<Vec<_>>())
    });
    assert_eq!(shown.collect::<Vec<_>>(), leaves.collect::<Vec<_>>());
    let cells = Cells::new(widths, picture.depth);
    for cell in cells.all(picture.depth) {
        let shown = &picture.cells[cell.address];
        assert_eq!(bits(shown.bits), cell.bits);
        assert_eq!(shown.index, cells.index_vector(&cell.bits)[..widths.len()]);
        assert!(cell.bits.starts_with(&bits(picture.leaves[shown.leaf].bits)));
    }
}

#[test]
fn beside_the_plain_model() {
    let mut random = Random::new(SEED + 1);
    for (widths, capacity) in
        [(&[7][..], 2), (&[2, 2], 2), (&[6, 3], 1), (&[5, 1, 4], 3), (&[3, 16, 2, 4], 16)]
    {
        for signs in [0, 0b0001, 0b1010, 0b1111] {
            compare(&mut random, signs, widths, capacity, 150);
        }
    }
}

/// Keys in all of a shape's values.
fn keys(shape: Shape) -> impl Iterator<Item = [i32; 4]> {
    let values = move |j: usize| shape.values(j);
    let pairs = values(0).flat_map(move |a| values(1).map(move |b| (a, b)));
    pairs.flat_map(move |(a, b)| values(2).map(move |c| [a, b, c, 0]))
}

/// The store refuses a key with 6 exactly where the picture says so, and a fullest region takes as many as it says.
fn compare_fullest(random: &mut Random, shape: Shape, count: usize) -> (bool, bool) {
    let mut store = random_store(random, shape, PAGES, count);
    let picture = Picture::of(&store);
    let full: Vec<_> = picture.fullest.regions.iter().map(|region| picture.region(region.bits)).collect();
    let within = |key: [i32; 4]| {
        let record = mdeh::Record { values: key, payload: 1 };
        full.iter().any(|region| picture.matches(&record, region))
    };
    for key in keys(shape) {
        let refused = match store.insert(key, 1) {
            Ok(_) => store.delete(key).is_err(),
            Err(refusal) => refusal == Refusal::Depth,
        };
        let stored = store.lookup(key).is_ok();
        assert_eq!(refused, picture.fullest.refuses() && within(key) && !stored, "{key:?} of {shape:?}");
    }
    if let (Some(region), false) = (full.first(), picture.fullest.never) {
        let mut more = 0;
        for key in keys(shape) {
            if picture.matches(&mdeh::Record { values: key, payload: 1 }, region) {
                more += usize::from(store.insert(key, 1).is_ok());
            }
        }
        assert_eq!(more, picture.fullest.more, "{shape:?}");
    }
    (picture.fullest.refuses(), picture.fullest.never)
}

#[test]
fn where_6_is_next() {
    let mut random = Random::new(SEED + 2);
    let mut seen = Vec::new();
    for (widths, capacity) in
        [(&[16][..], 3), (&[7, 8], 1), (&[6, 9], 7), (&[5, 4, 6], 4), (&[6, 6], 2), (&[7, 7], 4)]
    {
        for keys in [0, 5, 60, 2000] {
            let shape = Shape::new(widths, capacity).signed(keys % 2);
            seen.push(compare_fullest(&mut random, shape, keys));
        }
    }
    for kind in [(true, false), (false, false), (false, true)] {
        assert!(seen.contains(&kind), "{kind:?}");
    }
}
