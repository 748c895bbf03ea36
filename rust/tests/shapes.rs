//! What is amiss in a shape (document 02, request 7): all combinations of an attribute count, four widths, a capacity
//! and memory, in bounds and out, in Fresh, in a state passed in to every call, in a loaded file, in the address calls
//! and through `replay`. A refused call changes nothing, and 14 alone names an attribute (`LentStore` compares both).
use mdeh::{Refusal, Store, STATE_WORDS};
use mdeh_tests::compare::Comparisons;
use mdeh_tests::host::{self, AddressResult, Index, IndexResult, MakeResult, Refused, Shape};
use mdeh_tests::lent::{lend_bytes, lend_words, Lent, LentStore};
use mdeh_tests::plain::image::{Image, SIGNS, STATE};
use mdeh_tests::probe::calls::{replay, replay_file, Replayed, CALL_SIZE};
use mdeh_tests::random::Random;

const SEED: u64 = 0x6d64_6568_2d30_3234;

/// Attribute counts, and widths and capacities: in bounds, next to the bounds, and large ones, whose last bits may be
/// in bounds.
const COUNTS: [u32; 8] = [0, 1, 2, 3, 4, 5, 257, u32::MAX];
const NUMBERS: [u32; 6] = [0, 1, 16, 17, 257, u32::MAX];

/// The same for the bytes of a file.
const BYTE_COUNTS: [u32; 8] = [0, 1, 2, 3, 4, 5, 128, 255];
const BYTE_NUMBERS: [u32; 6] = [0, 1, 16, 17, 128, 255];

/// All combinations, and those in bounds: two widths for each attribute, any past d, and two capacities.
const SHAPES: u64 = 8 * 6u64.pow(5);
const IN_BOUNDS: u64 = (2 * 6 * 6 * 6 + 2 * 2 * 6 * 6 + 2 * 2 * 2 * 6 + 2 * 2 * 2 * 2) * 2;

/// Each combination of these counts, and of these widths and capacities, with any marks.
fn each_shape(counts: [u32; 8], numbers: [u32; 6], mut each: impl FnMut(&mut Random, Shape)) {
    let mut random = Random::new(SEED);
    for n in 0..SHAPES as usize {
        let number = |place: u32| numbers[n / 8 / 6usize.pow(place) % 6];
        let widths = [0, 1, 2, 3].map(number);
        let signs = random.number() as u32;
        each(&mut random, Shape { attributes: counts[n % 8], widths, capacity: number(4), signs });
    }
}

/// "Number 1 remains for the attribute count. A bad width names its attribute, the lowest where there are several."
/// "Refused, also in a state passed in: 14, a width outside 1–16, after 1; then 15, capacity outside 1–16". The rows in
/// this order, of which the first that holds counts.
fn amiss(shape: Shape) -> Option<Refused> {
    let outside = |number: u32, most: u32| number < 1 || most < number;
    let width = |j: u32| (14, j, j < shape.attributes && outside(shape.widths[j as usize], 16));
    let [a, b, c, d] = [0, 1, 2, 3].map(width);
    let rows = [(1, 0, outside(shape.attributes, 4)), a, b, c, d, (15, 0, outside(shape.capacity, 16))];
    rows.iter().find(|row| row.2).map(|&(number, attribute, _)| refused(number, attribute))
}

/// A refusal that carries no depth.
fn refused(number: u32, attribute: u32) -> Refused {
    Refused { number, attribute, depth: 0 }
}

/// "both before 2".
fn amiss_or_short(shape: Shape, short: bool) -> Option<Refused> {
    amiss(shape).or_else(|| short.then(|| refused(2, 0)))
}

/// How many state words, directory words and page bytes are lent to a store of one word and one page: enough, and too
/// few of one kind or of several.
fn lengths(shape: Shape) -> [[usize; 3]; 6] {
    let page = 2 + 12 * shape.capacity.min(16) as usize;
    let [enough, no_word, no_page] = [[STATE, 1, page], [STATE, 0, page], [STATE, 1, page - 1]];
    [enough, no_word, no_page, [STATE - 1, 1, page], [0, 1, page], [0, 0, 0]]
}

/// Memory of these lengths.
fn memory(random: &mut Random, [state, words, bytes]: [usize; 3]) -> Image {
    Image { state: random.words(state), dir: random.words(words), pages: random.bytes(bytes) }
}

/// The number and the attribute of a call that makes a store.
fn made(refused: Option<Refused>) -> MakeResult {
    refused.map_or(MakeResult { number: 0, attribute: 0 }, |refused| {
        let Refused { number, attribute, .. } = refused;
        MakeResult { number, attribute }
    })
}

/// A shape as Fresh holds it: "Widths past d are ignored, and Fresh holds them as 0"; "A mark past d is ignored, and
/// Fresh clears it".
fn held(mut shape: Shape) -> Shape {
    let d = shape.attributes as usize;
    shape.widths[d..].fill(0);
    shape.signs &= (1 << d) - 1;
    shape
}

// ---- Fresh

#[test]
fn fresh() {
    let mut count = Comparisons::default();
    each_shape(COUNTS, NUMBERS, |random, shape| {
        for (kind, lengths) in lengths(shape).into_iter().enumerate() {
            // fewer words than a state has are refused where no memory would be
            let expected = amiss_or_short(shape, kind > 0);
            let image = memory(random, lengths);
            let mut lent = LentStore::new(random, &image);
            let LentStore { state, dir, pages } = &mut lent;
            let found = host::fresh_result(shape, state.slice_mut(), dir.slice_mut(), pages.slice_mut());
            let about = format_args!("{shape:?}, {lengths:?}");
            count.same(found, made(expected), about);
            if expected.is_some() {
                count.same(state.unchanged() && dir.unchanged() && pages.unchanged(), true, about);
            } else {
                count.same(lent.image().shape(), held(shape), about);
            }
        }
    });
    count.end(SHAPES * 6 * 2);
}

// ---- a state passed in

/// A store of this shape without records, with one directory word and one page; whatever the shape is.
fn empty_store(shape: Shape, [state, words, bytes]: [usize; 3]) -> Image {
    let Shape { attributes, widths: [a, b, c, d], capacity, signs } = shape;
    let mut whole = vec![attributes, a, b, c, d, capacity, 1, 0, 0, 1];
    whole.resize(STATE, 0);
    whole[SIGNS] = signs;
    whole.truncate(state);
    Image { state: whole, dir: vec![0; words], pages: vec![0; bytes] }
}

/// Every call on a store is refused so, whatever it is asked; the output is as it came.
fn all_refused(count: &mut Comparisons, random: &mut Random, store: &mut LentStore, expected: Refused) {
    let about = format!("{:?}, {} words", store.state.slice(), store.dir.slice().len());
    let about = format_args!("{about}");
    let (key, payload) = [([0; 4], 7), ([-1, i32::MIN, 1 << 16, 1], 0)][random.below(2)];
    let query = [[None; 4], key.map(Some)][random.below(2)];
    let range = [[None; 4], key.map(|value| Some((value, -1)))][random.below(2)];
    let mut out = lend_bytes(random, &[0xa5; 40]);
    count.same(store.insert(key, payload), Err(expected), about);
    count.same(store.delete(key), Err(expected), about);
    count.same(store.lookup(key), Err(expected), about);
    count.same(store.query(query, &mut out), Err(expected), about);
    count.same(store.range(range, &mut out), Err(expected), about);
    count.same(store.check(), Err(expected), about);
    count.same(store.save(&mut out), Err(expected), about);
    count.same(out.unchanged(), true, about);
}

/// Every call on a sound store without records, whose widths and marks past d are any.
fn all_accepted(count: &mut Comparisons, store: &mut LentStore) {
    let about = format!("{:?}", store.state.slice());
    let about = format_args!("{about}");
    let mut out = Lent::new(vec![1], &[2; 40], vec![3]);
    let absent = Refused { number: 5, attribute: 0, depth: 0 };
    count.same(store.lookup([0; 4]), Err(absent), about);
    count.same(store.query([None; 4], &mut out), Ok((0, 0, 0)), about);
    count.same(store.range([None; 4], &mut out), Ok((0, 0, 0)), about);
    count.same(store.check(), Ok(true), about);
    count.same(store.save(&mut out), Ok(24), about);
    count.same(store.delete([0; 4]), Err(absent), about);
    count.same(store.insert([0; 4], 7), Ok(0), about);
    count.same(store.lookup([0; 4]), Ok((7, 1, 0)), about);
}

#[test]
fn states() {
    let mut count = Comparisons::default();
    each_shape(COUNTS, NUMBERS, |random, shape| {
        for (kind, lengths) in lengths(shape).into_iter().enumerate() {
            // "fewer state words than needed" show no shape
            let expected = match lengths[0] < STATE {
                true => Some(refused(1, 0)),
                false => amiss_or_short(shape, kind > 0),
            };
            let mut store = LentStore::new(random, &empty_store(shape, lengths));
            match expected {
                Some(expected) => all_refused(&mut count, random, &mut store, expected),
                None => all_accepted(&mut count, &mut store),
            }
        }
    });
    count.end(SHAPES * 6 * 8);
}

// ---- a loaded file

/// The file of a shape without records, with this last byte of the shape and these letters.
fn file_of(shape: Shape, last: u8, letters: &[u8]) -> Vec<u8> {
    let Shape { attributes, widths: [a, b, c, d], capacity, signs } = shape;
    let mut file: Vec<u8> = [attributes, a, b, c, d, capacity, signs].map(|number| number as u8).to_vec();
    file.push(last);
    file.extend(letters);
    [24, 24, 0u32].iter().for_each(|number| file.extend(number.to_le_bytes()));
    file
}

/// "12 .. checked first; then 1" and, by request 7, 14 and 15; "then 13, straight before 2, for a last shape byte, an
/// unused width or a mark bit without an attribute that is not 0".
fn load_refused(shape: Shape, last: u8, broken: bool, short: bool) -> Option<Refused> {
    if broken {
        return Some(refused(12, 0));
    }
    amiss(shape).or_else(|| {
        let stray = last != 0 || held(shape) != shape;
        stray.then(|| refused(13, 0)).or_else(|| amiss_or_short(shape, short))
    })
}

/// Files of all shapes, some with marks of attributes or past them, with a stray last byte and with other letters.
fn each_file(mut each: impl FnMut(&mut Random, Shape, u8, bool)) -> u64 {
    let mut files = 0;
    each_shape(BYTE_COUNTS, BYTE_NUMBERS, |random, shape| {
        let marks = shape.signs;
        for (signs, last, broken) in [
            (0, 0, false),
            (1, 0, false),
            (marks & 0xff, 0, false),
            (0, 1, false),
            (0, 0, true),
            (1, 255, true),
        ] {
            files += 1;
            each(random, Shape { signs, ..shape }, last, broken);
        }
    });
    files
}

#[test]
fn files() {
    let mut count = Comparisons::default();
    let (mut accepted, mut named) = (0, 0);
    let files = each_file(|random, shape, last, broken| {
        let file = file_of(shape, last, if broken { b"MDEh" } else { b"MDEH" });
        for (kind, lengths) in lengths(shape).into_iter().enumerate() {
            let expected = load_refused(shape, last, broken, kind > 0);
            let image = memory(random, lengths);
            let loaded = LentStore::load(random, &file, &image);
            let about = format_args!("{file:?}, {lengths:?}");
            count.same(loaded.as_ref().err().copied(), expected, about);
            if let Ok(store) = loaded {
                count.same((store.image().shape(), store.check()), (shape, Ok(true)), about);
                accepted += 1;
            }
            named += u64::from(expected.is_some_and(|refused| refused.number == 14));
        }
    });
    println!("{accepted} files accepted, {named} refused with 14");
    assert!(accepted > 100 && named > 100_000);
    count.end(files * 6 + accepted);
}

// ---- the address calls

#[test]
fn addresses() {
    let mut count = Comparisons::default();
    each_shape(COUNTS, NUMBERS, |random, shape| {
        let zeros = Index { i0: 0, i1: 0, i2: 0, i3: 0 };
        let about = format_args!("{shape:?}");
        let MakeResult { number, attribute } = made(amiss(shape));
        let expected = AddressResult { number, attribute, address: 0 };
        count.same(host::address_result(shape, [0; 4]), expected, about);
        let expected = IndexResult { number, attribute, index: zeros };
        count.same(host::index_result(shape, 0), expected, about);
        // "3" comes behind them
        let MakeResult { number, attribute } = made(amiss(shape).or(Some(refused(3, 0))));
        let (huge, past) = ([u64::MAX, 1 << 16, 1 << 32][random.below(3)], u64::MAX);
        let expected = AddressResult { number, attribute, address: 0 };
        count.same(host::address_result(shape, [huge; 4]), expected, about);
        let expected = IndexResult { number, attribute, index: zeros };
        // every address of 64 bits is one of four attributes of 16
        if amiss(shape).is_some() || shape.attributes < 4 || shape.widths != [16; 4] {
            count.same(host::index_result(shape, past), expected, about);
        } else {
            count.same(host::index(shape, past), Ok([65_535; 4]), about);
        }
    });
    count.end(SHAPES * 4);
}

// ---- replay

/// Words of two calls: an insert of (0, 0, 0, 0), and a lookup of it.
fn calls() -> Vec<u32> {
    let mut words = vec![0; 2 * CALL_SIZE];
    (words[9], words[CALL_SIZE]) = (7, 2);
    words
}

/// Replays the calls by `run` on memory of these lengths: number, attribute and, where the start is refused, nothing
/// changed and no state; else the answers.
fn compare_replay(
    count: &mut Comparisons,
    random: &mut Random,
    [_, words, bytes]: [usize; 3],
    expected: Option<Refused>,
    about: std::fmt::Arguments,
    run: impl FnOnce(&mut [u32], &mut [u8], &[u32], &mut [u64], &mut [u8]) -> Replayed,
) {
    let Image { dir, pages, .. } = memory(random, [0, words, bytes]);
    let (mut dir, mut pages) = (lend_words(random, &dir), lend_bytes(random, &pages));
    let mut answers = Lent::new(vec![5], &[9; 8], vec![6]);
    let mut out = Lent::new(vec![1], &[2; 3], vec![4]);
    let found = run(dir.slice_mut(), pages.slice_mut(), &calls(), answers.slice_mut(), out.slice_mut());
    let MakeResult { number, attribute } = made(expected);
    count.same((found.number, found.attribute), (number, attribute), about);
    if expected.is_some() {
        let unchanged = dir.unchanged() && pages.unchanged() && answers.unchanged() && out.unchanged();
        count.same((found.state, unchanged), ([0; STATE], true), about);
    } else {
        count.same(answers.slice(), &[0, 0, 0, 0, 0, 7, 1, 0], about);
    }
}

#[test]
fn replays() {
    let mut count = Comparisons::default();
    each_shape(COUNTS, NUMBERS, |random, shape| {
        for (kind, lengths) in lengths(shape).into_iter().take(3).enumerate() {
            let expected = amiss_or_short(shape, kind > 0);
            let about = format_args!("{shape:?}, {lengths:?}");
            compare_replay(
                &mut count,
                random,
                lengths,
                expected,
                about,
                |dir, pages, calls, answers, out| replay(shape, dir, pages, calls, answers, out),
            );
        }
    });
    count.end(SHAPES * 3 * 2);
}

#[test]
fn replays_of_files() {
    let mut count = Comparisons::default();
    let files = each_file(|random, shape, last, broken| {
        let file = file_of(shape, last, if broken { b"mDEH" } else { b"MDEH" });
        for (kind, lengths) in lengths(shape).into_iter().take(2).enumerate() {
            let expected = load_refused(shape, last, broken, kind > 0);
            let about = format_args!("{file:?}, {lengths:?}");
            compare_replay(
                &mut count,
                random,
                lengths,
                expected,
                about,
                |dir, pages, calls, answers, out| replay_file(&file, dir, pages, calls, answers, out),
            );
        }
    });
    count.end(files * 2 * 2);
}

// ---- the crate

/// `Store` says the same, in words too; a state that is opened is judged by each call.
#[test]
fn reasons() {
    let mut count = Comparisons::default();
    let mut accepted = 0;
    each_shape(COUNTS, NUMBERS, |_, shape| {
        let reason = amiss(shape).map(|refused| match refused.number {
            1 => Refusal::Shape,
            14 => Refusal::Width { attribute: refused.attribute as usize },
            _ => Refusal::Capacity,
        });
        let words = match reason {
            None => "no refusal".to_owned(),
            Some(Refusal::Shape) => {
                "the attribute count is outside 1 to 4, or the words of a state are too few".to_owned()
            }
            Some(Refusal::Width { attribute }) => {
                format!("the width of attribute {attribute} is outside 1 to 16")
            }
            Some(_) => "the page capacity is outside 1 to 16".to_owned(),
        };
        let about = format_args!("{shape:?}");
        let fresh = Store::fresh(shape, [0; STATE_WORDS], [0; 1], [0; 194]).err();
        count.same(fresh, reason, about);
        count.same(fresh.map_or("no refusal".to_owned(), |refusal| refusal.to_string()), words, about);
        count.same(fresh.map(Refusal::number), amiss(shape).map(|refused| refused.number), about);
        let Image { state, dir, pages } = empty_store(shape, [STATE, 1, 194]);
        let mut store = Store::open(state, dir, pages);
        count.same(store.check().err(), reason, about);
        count.same(store.insert([0], 7).err(), reason, about);
        count.same(mdeh::address(shape, [0]).err(), reason, about);
        count.same(mdeh::index(shape, 0).err(), reason, about);
        accepted += u64::from(reason.is_none());
    });
    assert_eq!(accepted, IN_BOUNDS);
    count.end(SHAPES * 7);
}
