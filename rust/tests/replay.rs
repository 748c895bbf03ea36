//! Demand 3 on the running code: random lists of calls, encoded in words and replayed on lent memory, from a fresh store
//! or from a loaded one, answer by answer and byte by byte as the plain model gives them (document 01, "The plain model
//! of demand 3"; document 02, requests 1, 2, 4, 5, 6 and 7).
use mdeh_tests::cells::Cells;
use mdeh_tests::compare::Comparisons;
use mdeh_tests::host::{self, CheckResult, Refused, Shape};
use mdeh_tests::lent::{lend_bytes, lend_words, Lent};
use mdeh_tests::plain::file::{file_of, load};
use mdeh_tests::plain::image::Image;
use mdeh_tests::plain::model::Model;
use mdeh_tests::plain::range::Intervals;
use mdeh_tests::plain::refusal::page_size;
use mdeh_tests::plain::samples::{query_of, random_key, random_model, random_payload, range_of};
use mdeh_tests::plain::shown::pages_shown;
use mdeh_tests::probe::calls::{replay, replay_file, Replayed, ANSWER_SIZE, CALL_SIZE};
use mdeh_tests::random::Random;
use mdeh_tests::shapes::random_shape;

const SEED: u64 = 0x6d64_6568_2d30_3137;

// ---- calls

/// A call as the model is given it; a query and a range with the bytes of its output.
#[derive(Clone, Copy, Debug)]
enum Call {
    Insert([i32; 4], u32),
    Delete([i32; 4]),
    Lookup([i32; 4]),
    Query([Option<i32>; 4], usize),
    Range(Intervals, usize),
}

/// The 15 words of a call. What the kind does not use is random, so is a range's kind from 4 on, what says that an
/// attribute is given, and the value or the ends of a free one.
fn words_of(random: &mut Random, call: Call) -> Vec<u32> {
    let mut words = random.words(CALL_SIZE);
    match call {
        Call::Insert(key, payload) => {
            (words[0], words[9]) = (0, payload);
            words[1..5].copy_from_slice(&key.map(|value| value as u32));
        }
        Call::Delete(key) => {
            words[0] = 1;
            words[1..5].copy_from_slice(&key.map(|value| value as u32));
        }
        Call::Lookup(key) => {
            words[0] = 2;
            words[1..5].copy_from_slice(&key.map(|value| value as u32));
        }
        Call::Query(query, size) => {
            (words[0], words[10]) = (3, size as u32);
            for (j, value) in query.into_iter().enumerate() {
                words[1 + j] = value.map_or(words[1 + j], |value| value as u32);
                words[5 + j] = if value.is_some() { words[5 + j].max(1) } else { 0 };
            }
        }
        Call::Range(range, size) => {
            (words[0], words[10]) = ([4, 5, 1 << 31, u32::MAX][random.below(4)], size as u32);
            for (j, ends) in range.into_iter().enumerate() {
                words[5 + j] = if ends.is_some() { words[5 + j].max(1) } else { 0 };
                if let Some((low, high)) = ends {
                    (words[1 + j], words[11 + j]) = (low as u32, high as u32);
                }
            }
        }
    }
    words
}

/// A random call: a key is near those stored, one in sixteen is out of bounds; a query and a range give any attributes,
/// unused ones too, and their output has up to 120 bytes.
fn random_call(random: &mut Random, model: &Model, inserts: usize) -> Call {
    let mut key = random_key(random, model);
    if random.below(16) == 0 {
        key[random.below(4)] = any_number(random);
    }
    match random.below(16) {
        turn if turn < inserts => Call::Insert(key, random_payload(random)),
        turn if turn < 10 => Call::Delete(key),
        turn if turn < 12 => Call::Lookup(key),
        turn if turn < 14 => Call::Query(query_of(given(random, model), key), random.below(121)),
        _ => Call::Range(random_range(random, model), random.below(121)),
    }
}

/// A number of up to 32 bits, in every other case below 0.
fn any_number(random: &mut Random) -> i32 {
    let number = random.short(32) as i32;
    [number, number.wrapping_neg()][random.below(2)]
}

/// The attributes that a query or a range gives: in one of four cases any, else some of those in use.
fn given(random: &mut Random, model: &Model) -> usize {
    let used = (1 << model.shape.attributes) - 1;
    random.below(16) & [15, used, used, used][random.below(4)]
}

/// A range at the values of two keys near those stored. One in sixteen has an interval with any ends of 32 bits.
fn random_range(random: &mut Random, model: &Model) -> Intervals {
    let keys = [random_key(random, model), random_key(random, model)];
    let subset = given(random, model);
    let mut range = range_of(random, model, subset, keys);
    if random.below(16) == 0 {
        range[random.below(4)] = Some((any_number(random), any_number(random)));
    }
    range
}

// ---- the model's side

/// The model's answer to a call as words; the output is changed as the model changes it.
fn answer(model: &mut Model, call: Call, out: &mut [u8]) -> [u64; ANSWER_SIZE] {
    let words = match call {
        Call::Insert(key, payload) => model.insert(key, payload).map(|depth| [0, 0, 0, depth.into()]),
        Call::Delete(key) => model.delete(key).map(|depth| [0, 0, 0, depth.into()]),
        Call::Lookup(key) => {
            model.lookup(key).map(|(payload, reads, depth)| [0, payload.into(), reads.into(), depth.into()])
        }
        Call::Query(query, _) => listed(model.query(query, out)),
        Call::Range(range, _) => listed(model.range(range, out)),
    };
    words.unwrap_or_else(|Refused { number, attribute, depth }| {
        [number.into(), attribute.into(), 0, depth.into()]
    })
}

/// The words of an accepted query or range.
fn listed(answer: Result<(u64, u64, u64), Refused>) -> Result<[u64; ANSWER_SIZE], Refused> {
    answer.map(|(written, total, reads)| [0, written, total, reads])
}

/// What a replay is lent beside the store, and what the model leaves of it.
struct Script {
    calls: Vec<u32>,
    answers: Vec<u64>,
    out: Vec<u8>,
    expected_answers: Vec<u64>,
    expected_out: Vec<u8>,
    model: Model,
}

impl Script {
    /// A list of so many calls. One list in four has less output than its queries and ranges ask for, one in four less
    /// room for answers than calls, and every list may end with part of a call or an answer.
    fn new(random: &mut Random, mut model: Model, calls: usize) -> Script {
        let room = if random.below(4) == 0 { random.below(20 * calls + 1) } else { 121 * calls };
        let asked = if random.below(4) == 0 { random.below(calls + 1) } else { calls };
        let (part, more) = (random.below(CALL_SIZE), random.below(ANSWER_SIZE));
        let out = random.bytes(room);
        let answers: Vec<u64> = (0..ANSWER_SIZE * asked + more).map(|_| random.number()).collect();
        let (mut expected_out, mut expected_answers) = (out.clone(), answers.clone());
        let (mut words, mut start) = (vec![], 0);
        for turn in 0..calls {
            // more inserts at first, more deletes at last
            let inserts = if random.below(calls) > turn { 7 } else { 3 };
            let call = random_call(random, &model, inserts);
            words.extend(words_of(random, call));
            if turn >= asked {
                continue;
            }
            // each output begins where the one before ended, and has at most what is left
            let size = match call {
                Call::Query(_, size) | Call::Range(_, size) => size.min(room - start),
                _ => 0,
            };
            let told = answer(&mut model, call, &mut expected_out[start..start + size]);
            expected_answers[ANSWER_SIZE * turn..][..ANSWER_SIZE].copy_from_slice(&told);
            start += size;
        }
        words.extend(random.words(part));
        Script { calls: words, answers, out, expected_answers, expected_out, model }
    }
}

// ---- replays

/// Numbers between up to seven guards on each side.
fn lend_numbers(random: &mut Random, content: &[u64]) -> Lent<u64> {
    let (before, after) = (random.below(8), random.below(8));
    let mut guards = |count| (0..count).map(|_| random.number()).collect();
    Lent::new(guards(before), content, guards(after))
}

/// What a replay begins with: a Fresh of a shape, or a load of a file.
enum Start {
    Fresh(Shape),
    Load(Vec<u8>),
}

impl Start {
    /// The model that so many words and bytes begin with, or the refusal.
    fn model(&self, words: usize, bytes: usize) -> Result<Model, Refused> {
        match self {
            Start::Fresh(shape) => Model::fresh(*shape, words, bytes),
            Start::Load(file) => load(file, words, bytes),
        }
    }

    fn replay(
        &self,
        dir: &mut [u32],
        pages: &mut [u8],
        calls: &[u32],
        answers: &mut [u64],
        out: &mut [u8],
    ) -> Replayed {
        match self {
            Start::Fresh(shape) => replay(*shape, dir, pages, calls, answers, out),
            Start::Load(file) => replay_file(file, dir, pages, calls, answers, out),
        }
    }
}

/// Replays a list of calls on random memory of these lengths and compares number and attribute, all answers and
/// outputs, and the store with the model's leaves. Returns the numbers of the answers.
fn compare(
    count: &mut Comparisons,
    random: &mut Random,
    start: &Start,
    lengths: (usize, usize),
    calls: usize,
    about: std::fmt::Arguments,
) -> Vec<u64> {
    let (words, bytes) = lengths;
    let content = random.words(words);
    let mut dir = lend_words(random, &content);
    let content = random.bytes(bytes);
    let mut pages = lend_bytes(random, &content);
    let first = start.model(words, bytes);
    let model = first.clone().unwrap_or_else(|_| Model::new(Shape::new(&[1], 1), 1, 0));
    let script = Script::new(random, model, calls);
    let mut answers = lend_numbers(random, &script.answers);
    let mut out = lend_bytes(random, &script.out);
    let (words, bytes) = (dir.slice_mut(), pages.slice_mut());
    let Replayed { number, attribute, state } =
        start.replay(words, bytes, &script.calls, answers.slice_mut(), out.slice_mut());
    let told = first.as_ref().map_or_else(|refused| (refused.number, refused.attribute), |_| (0, 0));
    count.same((number, attribute), told, about);
    if first.is_err() {
        let unchanged = dir.unchanged() && pages.unchanged() && answers.unchanged() && out.unchanged();
        count.same(unchanged, true, about);
        return vec![number.into()];
    }
    count.same(answers.slice(), &script.expected_answers[..], about);
    count.same(out.slice(), &script.expected_out[..], about);
    let Model { shape, page_limit, depth_limit, .. } = script.model;
    let kept = dir.unchanged_from(1 << depth_limit) && pages.unchanged_from(page_limit * page_size(shape));
    count.same(kept && answers.guards_stay() && out.guards_stay(), true, about);
    let found = host::check_result(&state, dir.slice(), pages.slice());
    count.same(found, CheckResult { number: 0, attribute: 0, sound: 1 }, about);
    let image = Image { state: state.to_vec(), dir: dir.slice().to_vec(), pages: pages.slice().to_vec() };
    let cells = Cells::new(script.model.widths(), depth_limit);
    count.same(pages_shown(&image, &script.model, &cells).err(), None, about);
    script.expected_answers.chunks_exact(ANSWER_SIZE).map(|words| words[0]).collect()
}

/// Lists of up to 120 calls on small stores, some of which Fresh refuses. Every number of a refusal but 9 is met.
#[test]
fn random_lists_on_small_stores() {
    let mut count = Comparisons::default();
    let mut random = Random::new(SEED);
    let mut met = [0u64; 16];
    let mut expected = 0;
    for list in 0..1500 {
        let mut shape = random_shape(&mut random, 14, 4);
        match list % 50 {
            0 => shape.capacity = 17,
            1 => shape.widths[shape.attributes as usize - 1] = 0,
            2 => shape.attributes = 5,
            _ => {}
        }
        let words = random.below(100);
        let bytes = random.below(20 * page_size(shape));
        let calls = random.below(121);
        let about = format_args!("seed {SEED:#x}, list {list}: {shape:?}, {words} words, {bytes} bytes");
        let start = Start::Fresh(shape);
        let numbers = compare(&mut count, &mut random, &start, (words, bytes), calls, about);
        expected += if Model::fresh(shape, words, bytes).is_ok() { 6 } else { 2 };
        numbers.iter().for_each(|&number| met[number as usize] += 1);
    }
    println!("answers by number: {met:?}");
    assert!(
        (0..16).all(|number| (met[number] > 0) == ![9, 12, 13].contains(&number)),
        "a number is not met, or 9, 12 or 13 is: {met:?}"
    );
    count.end(expected);
}

/// Lists of up to 60 calls on loaded stores, whose files may be refused, one in eight with a bit changed. Every number of
/// a refusal but 9 is met.
#[test]
fn random_lists_on_loaded_stores() {
    let mut count = Comparisons::default();
    let mut random = Random::new(SEED + 2);
    let mut met = [0u64; 16];
    let mut expected = 0;
    for list in 0..1500 {
        let model = random_model(&mut random);
        let mut file = file_of(&model);
        if random.below(8) == 0 {
            let place = random.below(file.len());
            file[place] ^= 1 << random.below(8);
        }
        let (words, bytes) = (random.below(600), random.below(50 * page_size(model.shape)));
        let calls = random.below(61);
        let about = format_args!("seed {:#x}, list {list}: {file:?}, {words} words, {bytes} bytes", SEED + 2);
        let start = Start::Load(file.clone());
        let numbers = compare(&mut count, &mut random, &start, (words, bytes), calls, about);
        expected += if start.model(words, bytes).is_ok() { 6 } else { 2 };
        numbers.iter().for_each(|&number| met[number as usize] += 1);
    }
    println!("answers by number: {met:?}");
    assert!(
        (0..16).all(|number| (met[number] > 0) == (number != 9)),
        "a number is not met, or 9 is: {met:?}"
    );
    count.end(expected);
}

/// A few long lists on larger stores.
#[test]
fn long_lists() {
    let mut count = Comparisons::default();
    let mut random = Random::new(SEED + 1);
    let mut refused = 0;
    for list in 0..12 {
        let shape = random_shape(&mut random, 40, 16);
        let (words, bytes) = (1 + random.below(5000), 1 + random.below(200));
        let bytes = bytes * page_size(shape);
        let about =
            format_args!("seed {:#x}, list {list}: {shape:?}, {words} words, {bytes} bytes", SEED + 1);
        let start = Start::Fresh(shape);
        let numbers = compare(&mut count, &mut random, &start, (words, bytes), 1500, about);
        refused += numbers.iter().filter(|&&number| number == 11).count();
    }
    println!("{refused} refused with 11");
    assert!(refused > 100);
    count.end(12 * 6);
}
