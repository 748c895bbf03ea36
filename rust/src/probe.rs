//! The inner steps of the store behind safe functions. Each tests what the step's `requires` asks, then
//! calls; where it does not hold, the answer is `None` and nothing is called.
//!
//! Here are the steps on the directory; the modules have those on words, keys, pages and queries, and whole lists of
//! calls.
pub mod calls;
pub mod keys;
pub mod matching;
pub mod records;
pub mod words;

use crate::host::Shape;
use crate::pages::packed;
use crate::plain::image::{DEPTH, DEPTH_LIMIT, PAGE_LIMIT, SIGNS, STATE, TALLY};
use crate::plain::refusal::{shape_refused, used_widths};

/// The widths of the four attributes in bits, 0 for an unused one.
#[repr(C)]
#[derive(Clone, Copy, Debug)]
struct RawWidths {
    w0: u64,
    w1: u64,
    w2: u64,
    w3: u64,
}

/// A key by its encodings.
#[repr(C)]
struct Key {
    values: [u32; 4],
}

/// A state as the steps take it: its marks stand with the shape.
#[repr(C)]
struct State {
    shape: Shape,
    page_limit: u32,
    depth_limit: u32,
    depth: u32,
    tally: [u32; 13],
}

impl State {
    /// The state of these words.
    fn of(words: &[u32; STATE]) -> State {
        let [attributes, w0, w1, w2, w3, capacity, ..] = *words;
        State {
            shape: Shape { attributes, widths: [w0, w1, w2, w3], capacity, signs: words[SIGNS] },
            page_limit: words[PAGE_LIMIT],
            depth_limit: words[DEPTH_LIMIT],
            depth: words[DEPTH],
            tally: std::array::from_fn(|x| words[TALLY + x]),
        }
    }

    /// Its words.
    fn words(&self) -> [u32; STATE] {
        let Shape { attributes, widths, capacity, signs } = self.shape;
        let limits = [self.page_limit, self.depth_limit, self.depth];
        let words = [&[attributes][..], &widths, &[capacity], &limits, &self.tally, &[signs]].concat();
        words.try_into().expect("as many as a state has")
    }
}

/// A full leaf and the split step at which it is divided: its page and depth, the place that a new key has on the page,
/// the step's place among the pairs and its number.
#[repr(C)]
#[derive(Clone, Copy, Debug)]
pub struct Split {
    pub page: u32,
    pub depth: u32,
    pub behind: usize,
    pub pair: u64,
    pub step: u64,
}

extern "C" {
    fn probe_find_cell(widths: RawWidths, key: u64, t: u64) -> u64;
    fn probe_double(widths: RawWidths, t: u64, dir: *mut u32, words: usize);
    fn probe_insert_double(state: State, dir: *mut u32, words: usize, split: Split) -> State;
    fn probe_fill(widths: RawWidths, key: Key, x: u64, t: u64, word: u32, dir: *mut u32, words: usize);
}

/// Widths of at most 16 bits (`Fit`), and their sum.
#[derive(Clone, Copy, Debug)]
pub struct Widths {
    raw: RawWidths,
    total: u64,
}

impl Widths {
    /// Up to four widths; an attribute that has none is unused.
    pub fn new(widths: &[u32]) -> Option<Widths> {
        if widths.len() > 4 || widths.iter().any(|&width| width > 16) {
            return None;
        }
        let width = |j: usize| widths.get(j).map_or(0, |&width| u64::from(width));
        let raw = RawWidths { w0: width(0), w1: width(1), w2: width(2), w3: width(3) };
        Some(Widths { raw, total: raw.w0 + raw.w1 + raw.w2 + raw.w3 })
    }

    /// Whether the pair (bit k, attribute j) with place g = 4k + j is a split step.
    #[inline]
    fn has_step(&self, g: u64) -> bool {
        let RawWidths { w0, w1, w2, w3 } = self.raw;
        g < 64 && g / 4 < [w0, w1, w2, w3][(g % 4) as usize]
    }

    /// Whether a directory of depth t fits the widths and a slice of so many words (`DirectoryFits`).
    #[inline]
    fn directory_fits(&self, t: u64, words: usize) -> bool {
        t <= self.total && t <= 12 && 1 << t <= words
    }
}

/// The address of a key's cell in a directory of depth t. The step takes a packed key: 16 bits of each encoding, more
/// than which no width counts.
#[inline]
pub fn find_cell(widths: &Widths, key: [u32; 4], t: u64) -> Option<u64> {
    if t > widths.total {
        return None;
    }
    // SAFETY: the widths fit and t is at most their sum, as the `requires` asks; numbers alone go in and out.
    Some(unsafe { probe_find_cell(widths.raw, packed(key.map(|value| value as u16)), t) })
}

/// Doubles a directory from depth t to t + 1.
#[inline]
pub fn double(widths: &Widths, t: u64, dir: &mut [u32]) -> Option<()> {
    if !widths.directory_fits(t.checked_add(1)?, dir.len()) {
        return None;
    }
    // SAFETY: a directory of depth t + 1 fits, as the `requires` asks; pointer and length are of one slice.
    unsafe { probe_double(widths.raw, t, dir.as_mut_ptr(), dir.len()) };
    Some(())
}

/// Doubles the directory of a state in the first of these words, until the new leaves of a full leaf fit, and puts the
/// new T into them.
pub fn insert_double(state: &mut [u32], dir: &mut [u32], split: Split) -> Option<()> {
    let words: &mut [u32; STATE] = state.first_chunk_mut()?;
    let before = State::of(words);
    let (limit, t) = (u64::from(before.depth_limit), u64::from(before.depth));
    if shape_refused(before.shape).is_some() || t > limit || split.step >= limit {
        return None;
    }
    if !Widths::new(&used_widths(before.shape))?.directory_fits(limit, dir.len()) {
        return None;
    }
    // SAFETY: the shape is in bounds, a directory of depth L fits, T is at most L and the step below it, as the
    // `requires` asks; pointer and length are of one slice.
    let after = unsafe { probe_insert_double(before, dir.as_mut_ptr(), dir.len(), split) };
    *words = after.words();
    Some(())
}

/// Sets every cell of the region of a key's first x split bits, in a directory of depth t.
#[inline]
pub fn fill(widths: &Widths, key: [u32; 4], x: u64, t: u64, word: u32, dir: &mut [u32]) -> Option<()> {
    if !widths.directory_fits(t, dir.len()) || x > t {
        return None;
    }
    // SAFETY: a directory of depth t fits and x is at most t, as the `requires` asks; pointer and length are
    // of one slice.
    unsafe { probe_fill(widths.raw, Key { values: key }, x, t, word, dir.as_mut_ptr(), dir.len()) };
    Some(())
}
