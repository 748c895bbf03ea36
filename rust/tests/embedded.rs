//! The safe crate: random lists of all calls on `mdeh::Store` compared with the plain model, and on stores of any kind
//! with the calls on lent slices.
use mdeh::{file_bytes, Key, LentStore, Listing, Query, Range, Record, Refusal, Shape, SharedStore, Store};
use mdeh::{RECORD_BYTES, STATE_WORDS};
use mdeh_tests::compare::Comparisons;
use mdeh_tests::host::{self, Refused};
use mdeh_tests::lent::{lend_bytes, lend_words, Lent};
use mdeh_tests::plain::file::{file_of, load};
use mdeh_tests::plain::image::{state_words, Image, Laid, STATE};
use mdeh_tests::plain::model::Model;
use mdeh_tests::plain::range::Intervals;
use mdeh_tests::plain::refusal::{absent, bad_width, refusal};
use mdeh_tests::plain::samples::{
    early_refused, query_of, random_key, random_model, random_payload, range_of, EARLY,
};
use mdeh_tests::plain::unsound;
use mdeh_tests::plain::value::{bounds, number_in};
use mdeh_tests::random::Random;
use mdeh_tests::shapes::random_shape;
use std::fmt::Arguments;
use std::ops::Bound::{self, Excluded, Included, Unbounded};

const SEED: u64 = 0x6d64_6568_2d30_3134;

/// State, directory and pages between guards.
type Memory = (Lent<u32>, Lent<u32>, Lent<u8>);

/// A key near those of a model, one in sixteen with a bit changed that may be past a width.
fn any_key(random: &mut Random, model: &Model) -> [i32; 4] {
    let mut key = random_key(random, model);
    if random.below(16) == 0 {
        key[random.below(4)] ^= 1 << random.below(32);
    }
    key
}

/// The key from as few values as it needs.
fn key_from(values: [i32; 4]) -> Key {
    match values {
        [a, 0, 0, 0] => [a].into(),
        [a, b, 0, 0] => [a, b].into(),
        [a, b, c, 0] => [a, b, c].into(),
        values => values.into(),
    }
}

/// The query from as few options as it needs, which is the one that is built value by value.
fn query_from(count: &mut Comparisons, wanted: [Option<i32>; 4]) -> Query {
    let query = match wanted {
        [a, None, None, None] => [a].into(),
        [a, b, None, None] => [a, b].into(),
        [a, b, c, None] => [a, b, c].into(),
        wanted => wanted.into(),
    };
    let given = |query: Query, j: usize| wanted[j].map_or(query, |value| query.given(j, value));
    count.same((0..4).fold(Query::all(), given), query, format_args!("{wanted:?}"));
    query
}

/// The range of these intervals, each in one of the forms that Rust has for it.
fn range_from(random: &mut Random, model: &Model, intervals: Intervals) -> Range {
    let mut range = Range::all();
    for (j, ends) in intervals.into_iter().enumerate() {
        let Some((low, high)) = ends else { continue };
        let (least, greatest) = bounds(model.shape, j);
        range = match random.below(5) {
            0 if high < i32::MAX => range.within(j, low..high + 1),
            1 if low == least => range.within(j, ..=high),
            2 if high == greatest => range.within(j, low..),
            3 if low > i32::MIN => range.within(j, (Excluded(low - 1), Included(high))),
            _ => range.within(j, low..=high),
        };
    }
    range
}

/// A query into so many bytes: counts, records and every byte of the output.
fn compare_query(count: &mut Comparisons, random: &mut Random, store: SharedStore, model: &Model) {
    let wanted = query_of(random.below(16), any_key(random, model));
    let query = query_from(count, wanted);
    let length = random.below(200);
    let mut expected = random.bytes(length);
    let mut out = lend_bytes(random, &expected);
    let found = store.query(query, out.slice_mut()).map(Listed::from);
    let answer = model.query(wanted, &mut expected);
    compare_list(count, found, answer, &out, &expected, model, format_args!("{wanted:?}, {model:?}"));
}

/// The same of a range.
fn compare_range(count: &mut Comparisons, random: &mut Random, store: SharedStore, model: &Model) {
    let keys = [0; 2].map(|_| any_key(random, model));
    let subset = random.below(16);
    let wanted = range_of(random, model, subset, keys);
    let range = range_from(random, model, wanted);
    let length = random.below(200);
    let mut expected = random.bytes(length);
    let mut out = lend_bytes(random, &expected);
    let found = store.range(range, out.slice_mut()).map(Listed::from);
    let answer = model.range(wanted, &mut expected);
    compare_list(count, found, answer, &out, &expected, model, format_args!("{range:?}, {model:?}"));
}

/// A listing's counts and records.
struct Listed {
    counts: (u64, u64, u64),
    records: Vec<Record>,
}

impl From<Listing<'_>> for Listed {
    fn from(listing: Listing) -> Listed {
        let Listing { written, total, reads, .. } = listing;
        Listed { counts: (written, total, reads), records: listing.records().collect() }
    }
}

/// Counts, records and every byte of the output.
fn compare_list(
    count: &mut Comparisons,
    found: Result<Listed, Refusal>,
    answer: Result<(u64, u64, u64), Refused>,
    out: &Lent<u8>,
    expected: &[u8],
    model: &Model,
    about: Arguments,
) {
    let counts = found.as_ref().map(|listed| listed.counts).map_err(|&refusal| refused(refusal));
    count.same(counts, answer, about);
    count.same(out.slice(), expected, about);
    assert!(out.guards_stay(), "a guard of the output is changed");
    let written =
        expected.chunks_exact(RECORD_BYTES).take(counts.map_or(0, |(written, ..)| written as usize));
    let records = found.iter().flat_map(|listed| &listed.records).copied();
    count.same(records.collect::<Vec<_>>(), written.map(|bytes| read(model.shape, bytes)).collect(), about);
}

/// The record of these bytes.
fn read(shape: Shape, bytes: &[u8]) -> Record {
    let field = |j: usize| u16::from_le_bytes([bytes[2 * j], bytes[2 * j + 1]]);
    let values = [0, 1, 2, 3].map(|j| number_in(shape, j, field(j)));
    Record { values, payload: u32::from_le_bytes([bytes[8], bytes[9], bytes[10], bytes[11]]) }
}

/// The comparisons of one turn.
const COMPARED: u64 = 1 + 1 + 4 + 3 + 2;

/// A refusal by its number, and what it carries.
fn refused(refusal: Refusal) -> Refused {
    match refusal {
        Refusal::Absent { depth } => absent(depth),
        Refusal::Width { attribute } => bad_width(attribute as u32),
        other => Refused { number: other.number(), attribute: 0, depth: 0 },
    }
}

/// One change, one lookup, one query, one range, check and state. Returns the model's answer to the change.
fn turn(
    count: &mut Comparisons,
    random: &mut Random,
    store: &mut LentStore,
    model: &mut Model,
) -> Result<u32, Refused> {
    let key = any_key(random, model);
    let payload = random_payload(random);
    let (found, expected) = match random.below(3) {
        0 => (store.delete(key_from(key)).map(|deleted| deleted.depth), model.delete(key)),
        _ => {
            (store.insert(key_from(key), payload).map(|inserted| inserted.depth), model.insert(key, payload))
        }
    };
    count.same(found.map_err(refused), expected, format_args!("{key:?}, {payload}: {model:?}"));
    let key = any_key(random, model);
    let about = format_args!("{key:?}: {model:?}");
    let found = store.lookup(key).map(|found| (found.payload, found.reads, found.depth));
    count.same(found.map_err(refused), model.lookup(key), about);
    compare_query(count, random, store.shared(), model);
    compare_range(count, random, store.shared(), model);
    count.same(store.check(), Ok(true), about);
    count.same(store.state()[..STATE].to_vec(), state_words(model, &model.leaves()), about);
    expected
}

/// Stores that are dropped and opened again while their lists run, and stores that Fresh refuses.
#[test]
fn lists_of_calls() {
    let mut count = Comparisons::default();
    let mut random = Random::new(SEED);
    let (mut accepted, mut elevens) = (0, 0);
    for _ in 0..250 {
        let mut shape = random_shape(&mut random, 18, 5);
        if random.below(16) == 0 {
            shape.capacity = [0, 17, u32::MAX][random.below(3)];
        }
        if random.below(16) == 0 {
            shape.widths[random.below(4)] = [0, 17, u32::MAX][random.below(3)];
        }
        let (words, bytes) = (random.below(100), random.below(800));
        let behind = random.below(3);
        let content = (random.words(STATE_WORDS + behind), random.words(words), random.bytes(bytes));
        let (state, dir) = (lend_words(&mut random, &content.0), lend_words(&mut random, &content.1));
        let mut memory = (state, dir, lend_bytes(&mut random, &content.2));
        let (state, dir, pages) = &mut memory;
        let fresh = Store::fresh(shape, state.slice_mut(), dir.slice_mut(), pages.slice_mut());
        let fresh = fresh.map(drop).map_err(refused);
        let model = Model::fresh(shape, words, bytes);
        count.same(fresh.err(), model.as_ref().err().copied(), format_args!("{shape:?}"));
        if let Ok(mut model) = model {
            elevens += sessions(&mut count, &mut random, &mut memory, &mut model);
            accepted += 1;
        }
        let (state, dir, pages) = &memory;
        assert!(state.guards_stay() && dir.guards_stay() && pages.guards_stay(), "a guard is changed");
        assert_eq!(
            state.slice()[STATE_WORDS..],
            content.0[STATE_WORDS..],
            "a word behind the state is changed"
        );
    }
    println!("{elevens} refused with 11");
    assert!(elevens > 1000);
    count.end(250 + accepted * SESSIONS * TURNS * COMPARED);
}

const SESSIONS: u64 = 4;
const TURNS: u64 = 40;

/// Opens the store several times, with a list of calls each time. Returns how many were refused with 11.
fn sessions(count: &mut Comparisons, random: &mut Random, memory: &mut Memory, model: &mut Model) -> u64 {
    let (state, dir, pages) = memory;
    let mut refused = 0;
    for _ in 0..SESSIONS {
        let mut store = Store::open(state.slice_mut(), dir.slice_mut(), pages.slice_mut());
        for _ in 0..TURNS {
            refused += u64::from(turn(count, random, &mut store, model) == Err(refusal(11)));
        }
        assert_eq!(store.shape(), model.shape);
    }
    refused
}

// ---- the same answers as the calls on lent slices

/// All calls on a copy of any store by `Store`, and on another by the calls on slices. Returns the insert's answer.
fn same_answers(
    count: &mut Comparisons,
    random: &mut Random,
    model: &Model,
    image: &Image,
) -> Result<u32, Refused> {
    let Image { state, dir, pages } = image.clone();
    let mut store = Store::open(state, dir, pages);
    let Image { state, dir, pages } = &mut image.clone();
    let about = format_args!("{:?}, {model:?}", image.state);
    count.same(store.check().map_err(refused), host::check(state, dir, pages), about);
    let key = any_key(random, model);
    let found = store.lookup(key).map(|found| (found.payload, found.reads, found.depth));
    count.same(found.map_err(refused), host::lookup(state, dir, pages, key), about);
    let wanted = query_of(random.below(16), key);
    let (mut out, mut expected) = ([7; 100], [7; 100]);
    let found = store.query(wanted, &mut out);
    let records = found.as_ref().map_or(0, |listing| listing.records().count() as u64);
    let counts = found.map(|listing| (listing.written, listing.total, listing.reads));
    let plain = host::query(state, dir, pages, wanted, &mut expected);
    count.same(records, plain.map_or(0, |plain| plain.written), about);
    let plain = plain.map(|plain| (plain.written, plain.total, plain.reads));
    count.same(counts.map_err(refused), plain, about);
    count.same(out, expected, about);
    let keys = [key, any_key(random, model)];
    let subset = random.below(16);
    let wanted = range_of(random, model, subset, keys);
    let range = (0..4).fold(Range::all(), |range, j| {
        wanted[j].map_or(range, |(low, high)| range.within(j, (Included(low), Included(high))))
    });
    let found = store.range(range, &mut out);
    let counts = found.map(|listing| (listing.written, listing.total, listing.reads));
    let plain = host::range(state, dir, pages, wanted, &mut expected);
    let plain = plain.map(|plain| (plain.written, plain.total, plain.reads));
    count.same(counts.map_err(refused), plain, about);
    count.same(out, expected, about);
    let (mut out, mut expected) = ([7; 400], [7; 400]);
    let found = store.save(&mut out).map(|size| size as u64);
    count.same(found.map_err(refused), host::save(state, dir, pages, &mut expected), about);
    count.same(out, expected, about);
    let payload = random_payload(random);
    let found = store.insert(key, payload).map(|inserted| inserted.depth);
    let inserted = host::insert(state, dir, pages, key, payload);
    count.same(found.map_err(refused), inserted, about);
    let found = store.delete(key).map(|deleted| deleted.depth);
    count.same(found.map_err(refused), host::delete(state, dir, pages, key), about);
    let after = Image { state: state.to_vec(), dir: dir.to_vec(), pages: pages.to_vec() };
    let Image { state, dir, pages } = &after;
    count.same((store.state(), store.directory(), store.pages()), (state, dir, pages), about);
    inserted
}

#[test]
fn any_memory_as_the_calls_on_slices() {
    let mut count = Comparisons::default();
    let mut random = Random::new(SEED);
    let mut refused = 0;
    let mut each = |random: &mut Random, model: &Model, image: &Image| {
        refused += u64::from(same_answers(&mut count, random, model, image) == Err(refusal(11)));
    };
    unsound::random_memory(&mut random, 1000, 0x0003_000f, &mut each);
    unsound::random_states(&mut random, 1000, &mut each);
    println!("{refused} refused with 11");
    assert!(refused > 100);
    count.end(2000 * 12);
}

/// Files of random sets, half of them with a bit changed, one in four in the shape: the refusals and the memory of
/// `Store` are those of the calls on slices, and the file of a loaded store has the bytes that came.
#[test]
fn files_as_the_calls_on_slices() {
    let mut count = Comparisons::default();
    let mut random = Random::new(SEED);
    let mut met = [0; 16];
    for _ in 0..2000 {
        let model = random_model(&mut random);
        let mut file = file_of(&model);
        if random.below(2) == 0 {
            let place = [random.below(file.len()), file.len() - 24 + random.below(8)][random.below(2)];
            file[place] ^= 1 << random.below(8);
        }
        let (words, bytes) = (random.below(300), random.below(6000));
        let Image { mut state, mut dir, mut pages } = Image::random(&mut random, words, bytes);
        let (mut head, mut directory, mut lent) = (state.clone(), dir.clone(), pages.clone());
        let plain = host::load(&file, &mut state, &mut dir, &mut pages);
        met[plain.map_or_else(|refused| refused.number as usize, |()| 0)] += 1;
        let about = format_args!("{words} words, {bytes} bytes: {file:?}");
        let found = Store::load(&file, &mut head, &mut directory, &mut lent);
        let loaded = found.as_ref().map(|store| store.shape());
        let expected = plain.and_then(|()| Ok(load(&file, words, bytes)?.shape));
        count.same(loaded.map_err(|&refusal| refused(refusal)), expected, about);
        if let Ok(store) = found {
            let mut out = vec![7; file.len() + 9];
            count.same(store.save(&mut out), Ok(file_bytes((file.len() - 24) / 12)), about);
            count.same(out, [&file[..], &[7; 9]].concat(), about);
        }
        count.same((head, directory, lent), (state, dir, pages), about);
    }
    println!("answers by number: {met:?}");
    assert!([0, 1, 2, 6, 7, 12, 13, 14, 15].iter().all(|&number| met[number] > 10));
    count.end(2000 * 2 + met[0] * 2);
}

// ---- what only the crate has

#[test]
fn an_attribute_that_no_shape_has() {
    let mut count = Comparisons::default();
    let mut random = Random::new(SEED);
    for _ in 0..100 {
        let model = random_model(&mut random);
        let image = Laid::new(&mut random, &model).image;
        let early = early_refused(&image, &model);
        for (Image { state, dir, pages }, expected) in early.into_iter().chain([(image, refusal(8))]) {
            let store = Store::open(&state, &dir, &pages);
            for attribute in [4, 5, 1 << 32, usize::MAX] {
                let query = Query::all().given(0, i32::MAX).given(attribute, 0);
                let found = store.query(query, &mut []);
                count.same(found.err().map(refused), Some(expected), format_args!("{attribute}"));
                let range = Range::all().within(0, i32::MAX..).within(attribute, ..);
                let found = store.range(range, &mut []);
                count.same(found.err().map(refused), Some(expected), format_args!("{attribute}"));
            }
        }
    }
    count.end(100 * (EARLY + 1) * 4 * 2);
}

/// Every form of a range of Rust on an attribute of four bits that has all its values, marked or not: the values in it
/// are counted, an end out of bounds is refused, and so is a range without a value.
#[test]
fn ranges_of_every_form() {
    let mut count = Comparisons::default();
    for shape in [Shape::new(&[4], 2), Shape::new(&[4], 2).signed(0)] {
        let mut store = Store::fresh(shape, [0; STATE_WORDS], [0; 16], [0; 16 * 26]).expect("accepted");
        let (least, greatest) = bounds(shape, 0);
        (least..=greatest).for_each(|value| assert!(store.insert([value], 1).is_ok()));
        let ends = || {
            (-10..20)
                .chain([i32::MIN, i32::MIN + 1, i32::MAX - 1, i32::MAX])
                .flat_map(|value| [Included(value), Excluded(value)])
        };
        for start in ends().chain([Unbounded]) {
            for end in ends().chain([Unbounded]) {
                let range = Range::all().within(0, (start, end));
                let found = store.range(range, &mut []).map(|listing| listing.total);
                let (low, high) = (lowest(start, least), highest(end, greatest));
                let is_value = |end: i64| i64::from(least) <= end && end <= i64::from(greatest);
                let expected = match (low, high) {
                    _ if !is_value(low) => Err(Refusal::Value),
                    // nothing is below the least value
                    _ if end == Excluded(least) => Err(Refusal::Interval),
                    _ if !is_value(high) => Err(Refusal::Value),
                    _ if low > high => Err(Refusal::Interval),
                    _ => Ok((high - low + 1) as u64),
                };
                count.same(found, expected, format_args!("{shape:?}, {start:?}, {end:?}"));
            }
        }
    }
    count.end(2 * 69 * 69);
}

/// The least value past a start of a range, as wide as it may be, of an attribute with this least one.
fn lowest(start: Bound<i32>, least: i32) -> i64 {
    match start {
        Included(low) => low.into(),
        Excluded(before) => i64::from(before) + 1,
        Unbounded => least.into(),
    }
}

/// The greatest value before an end, of an attribute with this greatest one.
fn highest(end: Bound<i32>, greatest: i32) -> i64 {
    match end {
        Included(high) => high.into(),
        Excluded(past) => i64::from(past) - 1,
        Unbounded => greatest.into(),
    }
}

#[test]
fn a_later_interval_takes_the_place_of_an_earlier_one() {
    let range = Range::all().within(1, 7..).within(1, 3..5).within(0, ..);
    assert_eq!(range, Range::all().within(0, ..).within(1, 3..=4));
}

#[test]
fn shapes_of_any_widths() {
    for (widths, attributes) in [(&[][..], 0), (&[3; 4], 4), (&[3; 5], 5), (&[3; 900], 5)] {
        assert_eq!(Shape::new(widths, 1).attributes, attributes);
    }
    let fresh = Store::fresh(Shape::new(&[3; 5], 1), [0; STATE_WORDS], [0], [0; 14]);
    assert_eq!(fresh.unwrap_err(), Refusal::Shape);
    assert_eq!(Shape::new(&[3], u32::MAX).page_bytes(), 2 + 12 * 0xffff_ffff);
}

#[test]
fn reasons_as_in_the_header() {
    use Refusal::*;
    let header = include_str!("../../embed/mdeh.h");
    let reasons = [
        ("SHAPE", Shape),
        ("MEMORY", Memory),
        ("VALUE", Value),
        ("STORED", Stored),
        ("ABSENT", Absent { depth: 3 }),
        ("DEPTH", Depth),
        ("PAGES", Pages),
        ("ATTRIBUTE", Attribute),
        ("UNSOUND", Unsound),
        ("INTERVAL", Interval),
        ("PAYLOAD", Payload),
        ("FILE", File),
        ("CONTENT", Content),
        ("WIDTH", Width { attribute: 0 }),
        ("CAPACITY", Capacity),
    ];
    for (name, reason) in reasons {
        let numbered = format!("MDEH_REFUSED_{name} = {}", reason.number());
        assert!(header.contains(&numbered), "the header lacks {numbered}");
        let told = match reason {
            // the number alone names no attribute
            Width { .. } => reason.to_string().replace("attribute 0", "an attribute"),
            _ => reason.to_string(),
        };
        let told = format!("case MDEH_REFUSED_{name}: return \"{told}\";");
        assert!(header.contains(&told), "the header lacks {told}");
    }
    for attribute in 0..4 {
        let told = format!("\"{}\"", Width { attribute });
        assert!(header.contains(&told), "the header lacks {told}");
    }
}
