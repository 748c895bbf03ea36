//! Attributes that are marked as signed (document 02, request 4): "Its values run from −2^(w−1) to 2^(w−1) − 1, and its
//! encoding is the value plus 2^(w−1). Pages and output hold the value in 16-bit two's complement."
use mdeh::{Query, Record, Records, SharedStore, Store, RECORD_BYTES, STATE_WORDS};
use mdeh_tests::compare::Comparisons;
use mdeh_tests::host::Shape;
use mdeh_tests::lent::{lend_bytes, Lent, LentStore};
use mdeh_tests::plain::image::{Image, Laid, DEPTH, PAGE_LIMIT};
use mdeh_tests::plain::judge::judge;
use mdeh_tests::plain::model::Model;
use mdeh_tests::plain::ordered::Ordered;
use mdeh_tests::plain::range::Intervals;
use mdeh_tests::plain::refusal::{absent, page_size, refusal};
use mdeh_tests::plain::samples::{given_payload, query_of, random_key, random_model};
use mdeh_tests::random::Random;
use mdeh_tests::shapes::random_shape;
use mdeh_tests::twins::{Twins, ASKED, CHANGED};

const SEED: u64 = 0x6d64_6568_2d30_3231;

/// Widths, and the least and the greatest value of an attribute that is not marked and of one that is.
const BOUNDS: [(u32, [(i32, i32); 2]); 5] = [
    (1, [(0, 1), (-1, 0)]),
    (2, [(0, 3), (-2, 1)]),
    (10, [(0, 1023), (-512, 511)]),
    (15, [(0, 32_767), (-16_384, 16_383)]),
    (16, [(0, 65_535), (-32_768, 32_767)]),
];

/// A store without records, of so many words and pages.
fn fresh_store(random: &mut Random, shape: Shape, words: usize, pages: usize) -> LentStore {
    let memory = Image::random(random, words, pages * page_size(shape));
    LentStore::fresh(random, shape, &memory)
}

/// A key of this value of attribute j, and 0 of the others.
fn key_with(j: usize, value: i32) -> [i32; 4] {
    [0, 1, 2, 3].map(|i| if i == j { value } else { 0 })
}

/// A range of this interval of attribute j.
fn range_with(j: usize, ends: (i32, i32)) -> Intervals {
    [0, 1, 2, 3].map(|i| (i == j).then_some(ends))
}

// ---- the store of encodings beside it

/// Random lists of all calls on stores in which some attribute is marked.
#[test]
fn a_store_and_that_of_its_encodings() {
    let mut count = Comparisons::default();
    let mut random = Random::new(SEED);
    let mut met = [0; 12];
    for turn in 0..400 {
        let mut shape = random_shape(&mut random, [8, 18, 64][turn % 3], 5);
        shape.signs |= 1 << random.below(shape.attributes as usize);
        let mut twins = Twins::new(&mut random, shape);
        for _ in 0..150 {
            let change = twins.change(&mut count, &mut random).map_or_else(|refused| refused.number, |_| 0);
            let [query, range] = twins.ask(&mut count, &mut random);
            [change, query, range].iter().for_each(|&number| met[number as usize] += 1);
        }
    }
    println!("answers by number: {met:?}");
    assert!([0, 3, 4, 5, 6, 7, 8, 10, 11].iter().all(|&number| met[number] > 500));
    count.end(400 * 150 * (CHANGED + ASKED));
}

// ---- 3

/// An attribute of a store without records, and its bounds.
struct Attribute {
    shape: Shape,
    store: LentStore,
    j: usize,
    least: i32,
    greatest: i32,
}

impl Attribute {
    /// All calls with a number that is no value: 3. The other values are 0.
    fn refuse(&mut self, count: &mut Comparisons, number: i32) {
        let Attribute { shape, store, j, least, greatest } = self;
        let key = key_with(*j, number);
        let about = format_args!("{shape:?}, {key:?}");
        count.same(store.lookup(key), Err(refusal(3)), about);
        count.same(store.insert(key, 7), Err(refusal(3)), about);
        count.same(store.delete(key), Err(refusal(3)), about);
        let mut out = Lent::new(vec![1], &[2; 40], vec![3]);
        count.same(store.query(query_of(1 << *j, key), &mut out), Err(refusal(3)), about);
        for ends in [(number, *greatest), (*least, number), (number, number)] {
            count.same(store.range(range_with(*j, ends), &mut out), Err(refusal(3)), about);
        }
        count.same(out.unchanged(), true, about);
    }

    /// All calls with a value, and its field in a page and an output.
    fn accept(&mut self, count: &mut Comparisons, value: i32) {
        let Attribute { shape, store, j, least, greatest } = self;
        let key = key_with(*j, value);
        let about = format_args!("{shape:?}, {key:?}");
        count.same(store.lookup(key), Err(absent(0)), about);
        count.same(store.delete(key), Err(absent(0)), about);
        count.same(store.insert(key, 7), Ok(0), about);
        count.same(store.lookup(key), Ok((7, 1, 0)), about);
        count.same(store.check(), Ok(true), about);
        let mut record = [0; RECORD_BYTES];
        record[2 * *j..2 * *j + 2].copy_from_slice(&value.to_le_bytes()[..2]);
        record[8] = 7;
        let mut image = store.image();
        let g = (0..image.state[PAGE_LIMIT] as usize).find(|&g| image.count(g) == 1).expect("a page has it");
        count.same(&*image.record(g, 0), &record[..], about);
        let mut out = Lent::new(vec![1], &[2; 13], vec![3]);
        count.same(store.query(query_of(1 << *j, key), &mut out), Ok((1, 1, 1)), about);
        for ends in [(value, *greatest), (*least, value), (value, value)] {
            count.same(store.range(range_with(*j, ends), &mut out), Ok((1, 1, 1)), about);
        }
        count.same(out.slice(), &[&record[..], &[2]].concat()[..], about);
        count.same(store.delete(key), Ok(0), about);
    }
}

/// Widths of 1, 2, 10, 15 and 16 bits in each attribute of each shape, marked or not; the others may be marked too.
#[test]
fn both_bounds_and_one_beyond() {
    let mut count = Comparisons::default();
    let mut random = Random::new(SEED);
    let (mut accepted, mut refused) = (0, 0);
    let attributes = || (1..=4).flat_map(|d| (0..d).map(move |j| (d, j)));
    for (width, both) in BOUNDS {
        for ((d, j), signs) in attributes().flat_map(|place| (0..16).map(move |signs| (place, signs))) {
            let mut shape = Shape { signs, ..Shape::new(&vec![5; d], 1 + random.below(16) as u32) };
            shape.widths[j] = width;
            let (least, greatest) = both[(signs >> j & 1) as usize];
            let store = fresh_store(&mut random, shape, 64, 8);
            let mut attribute = Attribute { shape, store, j, least, greatest };
            let below = (-1).max(least);
            let middle = least + random.below((greatest - least) as usize + 1) as i32;
            for value in [least, least + 1, below, 0, middle, greatest - 1, greatest] {
                accepted += 1;
                attribute.accept(&mut count, value);
            }
            let far = [i32::MIN, i32::MIN + greatest, -(1 << 16), 1 << 16, i32::MAX, i32::MAX + least];
            // the last of each three has the low bits of a value
            let near = [least - 1, least - 2, least - (1 << width)];
            let past = [greatest + 1, greatest + 2, greatest + (1 << width)];
            for number in [&far[..], &near, &past].concat() {
                refused += 1;
                attribute.refuse(&mut count, number);
            }
        }
    }
    assert_eq!((accepted, refused), (5 * 160 * 7, 5 * 160 * 12));
    count.end(accepted * 12 + refused * 8);
}

// ---- 3, 8, 10 and 11

/// Ranges of an attribute from -512 to 511, one from 0 to 63, and none behind them.
#[test]
fn the_numbers_of_ranges_in_their_order() {
    let mut count = Comparisons::default();
    let mut random = Random::new(SEED);
    let shape = Shape::new(&[10, 6], 2).signed(0);
    let store = fresh_store(&mut random, shape, 16, 4);
    let any = Some((-512, 511));
    for (range, expected) in [
        ([Some((-1, 0)), None, None, None], Ok((0, 0, 0))),
        ([Some((0, -1)), None, None, None], Err(10)),
        ([Some((-512, 511)), None, None, None], Ok((0, 0, 0))),
        ([Some((511, -512)), None, None, None], Err(10)),
        ([Some((-511, -512)), None, None, None], Err(10)),
        ([Some((-512, -512)), None, None, None], Ok((0, 0, 0))),
        ([Some((-513, -512)), None, None, None], Err(3)),
        ([Some((-512, -513)), None, None, None], Err(3)),
        ([Some((-513, -514)), None, None, None], Err(3)),
        ([Some((512, 511)), None, None, None], Err(3)),
        ([Some((512, -513)), None, None, None], Err(3)),
        ([Some((511, 512)), None, None, None], Err(3)),
        ([Some((1023, 1023)), None, None, None], Err(3)),
        ([Some((i32::MIN, i32::MAX)), None, None, None], Err(3)),
        ([Some((i32::MAX, i32::MIN)), None, None, None], Err(3)),
        ([Some((0, -1)), Some((0, 63)), None, None], Err(10)),
        ([any, Some((63, 0)), None, None], Err(10)),
        ([Some((0, -1)), Some((0, 64)), None, None], Err(3)),
        ([Some((0, -1)), Some((-1, 63)), None, None], Err(3)),
        ([any, Some((-1, -1)), None, None], Err(3)),
        ([any, Some((0, -1)), None, None], Err(3)),
        ([any, None, Some((0, 0)), None], Err(8)),
        ([Some((-513, 511)), None, None, any], Err(8)),
        ([Some((0, -1)), None, Some((-1, -2)), None], Err(8)),
        ([Some((0, -1)), Some((-1, -2)), None, Some((1, -1))], Err(8)),
    ] {
        let content = random.bytes(50);
        let mut out = lend_bytes(&mut random, &content);
        let about = format_args!("{range:?}");
        count.same(store.range(range, &mut out), expected.map_err(refusal), about);
        count.same(out.unchanged(), true, about);
    }
    count.end(25 * 2);
}

#[test]
fn the_numbers_of_queries_and_inserts_in_their_order() {
    let mut count = Comparisons::default();
    let mut random = Random::new(SEED);
    let shape = Shape::new(&[10, 6], 1).signed(0);
    let mut store = fresh_store(&mut random, shape, 1, 4);
    for (query, expected) in [
        ([Some(-512), None, None, None], Ok((0, 0, 0))),
        ([Some(-513), None, None, None], Err(3)),
        ([Some(512), None, None, None], Err(3)),
        ([None, Some(-1), None, None], Err(3)),
        ([Some(-513), None, Some(0), None], Err(8)),
        ([Some(-512), Some(-1), None, Some(-1)], Err(8)),
    ] {
        let content = random.bytes(50);
        let mut out = lend_bytes(&mut random, &content);
        let expected = expected.map_err(refusal);
        count.same(store.query(query, &mut out), expected, format_args!("{query:?}"));
        count.same(out.unchanged(), true, format_args!("{query:?}"));
    }
    for (key, payload, expected) in [
        ([-513, 0], 0, Err(3)),
        ([512, 0], 0, Err(3)),
        ([-1, -1], 0, Err(3)),
        ([-512, 0], 0, Err(11)),
        ([-512, 0], 7, Ok(0)),
        ([-512, 0], 0, Err(11)),
        ([-512, 0], 7, Err(4)),
        ([511, 0], 0, Err(11)),
        // a directory of one word
        ([511, 0], 7, Err(6)),
        ([512, 0], 7, Err(3)),
    ] {
        let [a, b] = key;
        let expected = expected.map_err(refusal);
        count.same(store.insert([a, b, 0, 0], payload), expected, format_args!("{key:?}, {payload}"));
    }
    count.end(6 * 2 + 10);
}

// ---- fields

/// Each number of 16 bits as a field of the only record of a store: check says no exactly where it stands for no value,
/// and then a call that reads the page tells it.
#[test]
fn every_field_of_a_page() {
    let mut count = Comparisons::default();
    let mut random = Random::new(SEED);
    let mut sound = 0;
    for (width, both) in BOUNDS {
        for (j, is_marked) in [(0, 0), (0, 1), (1, 0), (1, 1)] {
            let mut shape = Shape::new(&[6, 6], 1 + random.below(4) as u32);
            (shape.widths[j], shape.signs) = (width, is_marked << j);
            let (least, greatest) = both[is_marked as usize];
            let mut store = fresh_store(&mut random, shape, 16, 4);
            store.insert([0, 0, 0, 0], 7).expect("accepted");
            let mut image = store.image();
            let g = (0..4).find(|&g| image.count(g) == 1).expect("a page has the record");
            for field in 0..=u16::MAX {
                image.record(g, 0)[2 * j..2 * j + 2].copy_from_slice(&field.to_le_bytes());
                store.pages.slice_mut().copy_from_slice(&image.pages);
                store.pages.lend_again();
                let number = if is_marked == 1 { i32::from(field as i16) } else { i32::from(field) };
                let is_value = (least..=greatest).contains(&number);
                sound += u64::from(is_value);
                let about = format_args!("{shape:?}, field {field:#x} of attribute {j}");
                count.same(store.check(), Ok(is_value), about);
                let key = key_with(j, if is_value { number } else { 0 });
                count.same(store.lookup(key), if is_value { Ok((7, 1, 0)) } else { Err(refusal(9)) }, about);
                let mut out = Lent::new(vec![1, 2], &[3; 12], vec![4]);
                let expected = if is_value { Ok((1, 1, 1)) } else { Err(refusal(9)) };
                count.same(store.query(query_of(1 << j, key), &mut out), expected, about);
                count.same(store.range(range_with(j, (least, greatest)), &mut out), expected, about);
                count.same(out.unchanged(), !is_value, about);
                if !is_value {
                    count.same([store.insert(key, 5), store.delete(key)], [Err(refusal(9)); 2], about);
                }
            }
        }
    }
    // as many as there are values
    let values = 2 * 2 * BOUNDS.iter().map(|(width, _)| 1 << width).sum::<u64>();
    assert_eq!(sound, values);
    let fields = 5 * 4 * 65_536;
    count.end(fields * 5 + (fields - values));
}

/// Any number in the field of any record of random stores: check answers as the judge does, and the other calls end in
/// bounds.
#[test]
fn any_field_of_random_stores() {
    let mut count = Comparisons::default();
    let mut random = Random::new(SEED);
    let (mut stores, mut sound) = (0, 0);
    while stores < 400 {
        let mut model = random_model(&mut random);
        if model.records.is_empty() {
            continue;
        }
        stores += 1;
        let d = model.widths().len();
        model.shape.signs |= 1 << random.below(d);
        let keys: Vec<Vec<bool>> = model.records.drain(..).map(|record| record.bits).collect();
        model.records = keys.iter().map(|bits| model.record(model.key_of(bits), 7)).collect();
        let laid = Laid::new(&mut random, &model);
        for _ in 0..40 {
            let mut image = laid.image.clone();
            let pages: Vec<usize> = laid.leaves.iter().filter_map(|placed| placed.page).collect();
            let g = pages[random.below(pages.len())];
            let (i, j) = (random.below(image.count(g)), random.below(d));
            let near = 1u16 << (model.widths()[j] - 1);
            let field =
                [random.number() as u16, near, near.wrapping_neg(), near.wrapping_neg().wrapping_sub(1)];
            let field = field[random.below(4)].wrapping_add(random.below(3) as u16);
            image.record(g, i)[2 * j..2 * j + 2].copy_from_slice(&field.to_le_bytes());
            let mut store = LentStore::new(&mut random, &image);
            let about = format_args!("page {g}, record {i}, field {j} {field:#x}: {model:?}");
            let found = store.check();
            sound += u64::from(found == Ok(true));
            count.same(found, judge(&image), about);
            let key = random_key(&mut random, &model);
            let mut out = lend_bytes(&mut random, &[9; 50]);
            let _ = (store.lookup(key), store.query([None; 4], &mut out), store.range([None; 4], &mut out));
            let _ = (store.insert(key, given_payload(&mut random)), store.delete(key));
        }
    }
    println!("{sound} of them sound");
    assert!(sound > 500);
    count.end(400 * 40);
}

// ---- split order and what is listed

/// All records that a query lists, by the crate's reader.
fn listed(store: SharedStore, query: Query) -> Vec<Record> {
    let mut out = [0; 70 * RECORD_BYTES];
    let listing = store.query(query, &mut out).expect("accepted");
    assert!(listing.is_complete());
    listing.records().collect()
}

/// "Split order .. go by encodings": -512 first, -1 straight before 0, also where leaves are divided.
#[test]
fn offsets_are_listed_from_the_least_to_the_greatest() {
    let mut count = Comparisons::default();
    let mut random = Random::new(SEED);
    let offsets = [-512, -511, -257, -256, -2, -1, 0, 1, 2, 255, 256, 510, 511];
    for capacity in 1..=16 {
        for drive in 0..4 {
            let shape = Shape::new(&[2, 10], capacity).signed(1);
            let mut store =
                Store::fresh(shape, [0; STATE_WORDS], [0; 4096], [0; 26 * 194]).expect("accepted");
            let mut order = offsets;
            random.shuffle(&mut order);
            for offset in order {
                store.insert([drive, offset], (1000 + offset) as u32).expect("accepted");
                // another drive, which is not listed
                store.insert([drive ^ 1, offset], 9).expect("accepted");
            }
            let records = listed(store.shared(), Query::all().given(0, drive));
            let expected = offsets
                .map(|offset| Record { values: [drive, offset, 0, 0], payload: (1000 + offset) as u32 });
            count.same(&records[..], &expected[..], format_args!("b = {capacity}, {drive}"));
        }
    }
    count.end(16 * 4);
}

/// All keys of two attributes of two bits, both marked, in split order: bit 0 of each encoding, then bit 1.
#[test]
fn every_key_of_two_marked_attributes_in_split_order() {
    let mut count = Comparisons::default();
    let mut random = Random::new(SEED);
    let order = [
        [-2, -2],
        [-2, -1],
        [-1, -2],
        [-1, -1],
        [-2, 0],
        [-2, 1],
        [-1, 0],
        [-1, 1],
        [0, -2],
        [0, -1],
        [1, -2],
        [1, -1],
        [0, 0],
        [0, 1],
        [1, 0],
        [1, 1],
    ];
    for capacity in 1..=16 {
        let shape = Shape::new(&[2, 2], capacity).signed(0).signed(1);
        let mut store = Store::fresh(shape, [0; STATE_WORDS], [0; 16], [0; 16 * 194]).expect("accepted");
        let mut keys = order;
        random.shuffle(&mut keys);
        keys.iter().for_each(|&key| assert!(store.insert(key, 1).is_ok()));
        let records = listed(store.shared(), Query::all());
        let found: Vec<[i32; 2]> =
            records.iter().map(|record| [record.values[0], record.values[1]]).collect();
        count.same(&found[..], &order[..], format_args!("b = {capacity}"));
    }
    count.end(16);
}

/// All values of an attribute of up to ten bits: inserted in any order, listed from the least to the greatest, looked up,
/// deleted.
#[test]
fn every_value_of_an_attribute() {
    let mut count = Comparisons::default();
    let mut random = Random::new(SEED);
    let mut values = 0;
    for width in 1..=10 {
        let shape = Shape::new(&[width], 8).signed(0);
        let (least, greatest) = (-(1 << (width - 1)), (1 << (width - 1)) - 1);
        let mut store = fresh_store(&mut random, shape, 1024, 400);
        let mut list = Ordered::new(Model::new(shape, 400, width as usize));
        let mut order: Vec<i32> = (least..=greatest).collect();
        random.shuffle(&mut order);
        for &value in &order {
            values += 1;
            let about = format_args!("width {width}, {value}");
            let (key, payload) = ([value, 0, 0, 0], given_payload(&mut random));
            let expected = list.insert(key, payload);
            assert!(expected.is_ok());
            count.same(store.insert(key, payload), expected, about);
        }
        let mut out = lend_bytes(&mut random, &vec![0; 12 << width]);
        let answer = store.range(range_with(0, (least, greatest)), &mut out);
        let about = format_args!("width {width}");
        count.same(answer.map(|(written, total, _)| [written, total]), Ok([1 << width; 2]), about);
        let fields = out.slice().chunks(12).map(|record| i16::from_le_bytes([record[0], record[1]]).into());
        count.same(fields.collect::<Vec<i32>>(), (least..=greatest).collect(), about);
        for &value in &order {
            let about = format_args!("width {width}, {value}");
            let key = [value, 0, 0, 0];
            count.same(store.lookup(key), list.lookup(key), about);
            let expected = list.delete(key);
            assert!(expected.is_ok());
            count.same(store.delete(key), expected, about);
        }
        count.same(&store.state.slice()[DEPTH..DEPTH + 3], &[0, 1, 0][..], about);
    }
    assert_eq!(values, (1 << 11) - 2);
    count.end(values * 3 + 10 * 3);
}

/// Any fields by the crate's reader: a sign where the attribute is marked and the shape has it.
#[test]
fn any_record_is_read_with_its_signs() {
    let mut count = Comparisons::default();
    for (d, signs) in (1..=4).flat_map(|d| (0..32).map(move |signs| (d, signs))) {
        let shape = Shape { signs, ..Shape::new(&vec![3; d], 1) };
        for field in [0, 1, 0x7fff, 0x8000, 0x807f, u16::MAX] {
            let mut bytes = [0x81; RECORD_BYTES];
            bytes[..8].chunks_exact_mut(2).for_each(|place| place.copy_from_slice(&field.to_le_bytes()));
            let signed = |j: usize| j < d && signs >> j & 1 == 1;
            let values = [0, 1, 2, 3].map(|j| if signed(j) { field as i16 as i32 } else { field.into() });
            let expected = Record { values, payload: 0x8181_8181 };
            let about = format_args!("{shape:?}, {field:#x}");
            count.same(Record::from_bytes(shape, bytes), expected, about);
            count.same([0, 1, 2, 3, 4].map(|j| shape.is_signed(j)), [0, 1, 2, 3, 4].map(signed), about);
        }
    }
    count.end(4 * 32 * 6 * 2);
}

/// Records of a page and of an output of random stores, by the crate's reader.
#[test]
fn records_are_read_back_with_their_signs() {
    let mut count = Comparisons::default();
    let mut random = Random::new(SEED);
    let mut records = 0;
    for _ in 0..500 {
        let model = random_model(&mut random);
        let Laid { image, leaves, .. } = Laid::new(&mut random, &model);
        let store = Store::open(&image.state, &image.dir, &image.pages);
        let mut out = vec![0; RECORD_BYTES * model.records.len() + 5];
        let listing = store.query(Query::all(), &mut out).expect("accepted");
        let found: Vec<_> = listing.records().map(|record| (record.values, record.payload)).collect();
        let expected: Vec<_> =
            leaves.iter().flat_map(|placed| &placed.leaf.records).map(|r| (r.key, r.payload)).collect();
        count.same(found, expected, format_args!("{model:?}"));
        for placed in leaves.iter().filter(|placed| placed.page.is_some()) {
            let start = page_size(model.shape) * placed.page.expect("it has a page") + 2;
            let stored = placed.leaf.records.len();
            records += stored as u64;
            for (i, record) in Records::new(store.shape(), &image.pages[start..], stored).enumerate() {
                let expected = &placed.leaf.records[i];
                let found = (record.values, record.payload);
                count.same(found, (expected.key, expected.payload), format_args!("{model:?}"));
            }
        }
    }
    println!("{records} records");
    count.end(500 + records);
}
