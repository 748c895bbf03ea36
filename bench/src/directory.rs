//! The steps on the directory's words.
use crate::inputs::{shown, vectors, SHAPES};
use crate::measure::Table;
use crate::plain;
use crate::step::Step;
use mdeh_tests::probe;
use mdeh_tests::random::Random;

/// How many keys a row has.
const KEYS: usize = 20_000;

/// The words of a directory of the greatest depth.
const WORDS: usize = 1 << 12;

pub fn rows(table: &mut Table, random: &mut Random) {
    for widths in SHAPES {
        cell(table, random, widths);
    }
    for widths in SHAPES {
        doubling(table, random, widths);
    }
    for widths in [SHAPES[1], SHAPES[3]] {
        for x in [12, 0] {
            region(table, random, widths, x);
        }
    }
}

/// The widths for both forms.
fn fitting(widths: &[u32]) -> (probe::Widths, plain::Widths) {
    let none = "no width is above 16";
    (probe::Widths::new(widths).expect(none), plain::Widths::new(widths).expect(none))
}

/// The cells of random keys in a directory of the greatest depth.
fn cell(table: &mut Table, random: &mut Random, widths: &[u32]) {
    let keys = vectors(random, widths, KEYS);
    let (proved, plain) = fitting(widths);
    table.pair(
        Step::call("cell of a key, T = 12", shown(widths)),
        keys,
        (),
        move |&key, _| probe::find_cell(&proved, key, 12).unwrap(),
        move |&key, _| plain::find_cell(&plain, key, 12).unwrap(),
    );
}

/// Doubling to the greatest depth.
fn doubling(table: &mut Table, random: &mut Random, widths: &[u32]) {
    let words: Vec<u32> = (0..WORDS).map(|_| random.number() as u32).collect();
    let (proved, plain) = fitting(widths);
    table.pair(
        Step::each("doubling, T = 11 to 12", shown(widths), "new word", WORDS / 2),
        &[()],
        words,
        move |_, words| done(probe::double(&proved, 11, words)),
        move |_, words| done(plain::double(&plain, 11, words)),
    );
}

/// The regions of random keys' first x bits in a directory of the greatest depth, each set to the key's
/// first number.
fn region(table: &mut Table, random: &mut Random, widths: &[u32], x: usize) {
    let size = WORDS >> x;
    let keys = vectors(random, widths, KEYS / size + 1);
    let (proved, plain) = fitting(widths);
    table.pair(
        Step::each(format!("setting a region of {size}, T = 12"), shown(widths), "word", size),
        keys,
        vec![0; WORDS],
        move |&key, words| done(probe::fill(&proved, key, x as u64, 12, key[0], words)),
        move |&key, words| done(plain::fill(&plain, key, x, 12, key[0], words)),
    );
}

/// 1 for a call that was made, as all are.
fn done(answer: Option<()>) -> u64 {
    answer.expect("the directory fits");
    1
}
