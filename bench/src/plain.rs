//! The steps in plain safe Rust, as they are written without proofs: the same ideas, indexing checked as
//! the program runs. No step is inlined, since those of a static library are not.
//!
//! The pair (bit k, attribute j) has place 4k + j.
use mdeh_tests::host::{Refused, Shape};
use mdeh_tests::plain::refusal::{bad_width, refusal};
use std::cmp::Ordering;

/// Widths of at most 16 bits: how many, the width of each attribute, 0 past them, and the sum.
#[derive(Clone)]
pub struct Widths {
    used: usize,
    bits: [usize; 4],
    total: usize,
}

impl Widths {
    pub fn new(widths: &[u32]) -> Option<Widths> {
        if widths.len() > 4 || widths.iter().any(|&width| width > 16) {
            return None;
        }
        let mut bits = [0; 4];
        for (j, &width) in widths.iter().enumerate() {
            bits[j] = width as usize;
        }
        Some(Widths { used: widths.len(), bits, total: bits.iter().sum() })
    }

    fn directory_fits(&self, t: usize, words: usize) -> bool {
        t <= self.total && t <= 12 && 1 << t <= words
    }
}

// ---- address map

/// The address of an index vector, or the refusal.
#[inline(never)]
pub fn address(shape: Shape, index: [u64; 4]) -> Result<u64, Refused> {
    let Shape { attributes, widths, capacity, .. } = shape;
    if !(1..=4).contains(&attributes) {
        return Err(refusal(1));
    }
    let mut bits = [0; 4];
    for j in 0..attributes as usize {
        if !(1..=16).contains(&widths[j]) {
            return Err(bad_width(j as u32));
        }
        bits[j] = widths[j] as usize;
    }
    if !(1..=16).contains(&capacity) {
        return Err(refusal(15));
    }
    if (0..4).any(|j| index[j] >> bits[j] != 0) {
        return Err(refusal(3));
    }
    Ok(locate(&bits, &index))
}

/// The address of an index vector.
fn locate(bits: &[usize; 4], index: &[u64; 4]) -> u64 {
    let past = |j: usize| index[j].checked_ilog2().map_or(0, |k| 4 * k as usize + j + 1);
    match past(0).max(past(1)).max(past(2)).max(past(3)) {
        0 => 0,
        latest => address_before(bits, index, latest - 1),
    }
}

/// The address of an index vector whose latest step is at place g: i_z, then the other indices from
/// attribute 0, each with the bits that it has just before that step.
fn address_before(bits: &[usize; 4], index: &[u64; 4], g: usize) -> u64 {
    let z = g % 4;
    let mut address = index[z];
    for j in 0..4 {
        if j != z {
            address = (address << depth_before(bits, g, j)) | index[j];
        }
    }
    address
}

/// How many bits attribute j has before place g.
fn depth_before(bits: &[usize; 4], g: usize, j: usize) -> usize {
    bits[j].min((g + 3 - j) / 4)
}

// ---- directory

/// The address of a key's cell in a directory of depth t.
#[inline(never)]
pub fn find_cell(widths: &Widths, key: [u32; 4], t: usize) -> Option<u64> {
    if t > widths.total {
        return None;
    }
    let (index, _) = cell(widths, key, t);
    Some(locate(&widths.bits, &index))
}

/// The index vector of a key's first t split bits, and the place past them.
fn cell(widths: &Widths, key: [u32; 4], t: usize) -> ([u64; 4], usize) {
    let mut index = [0; 4];
    let mut past = 0;
    let mut left = t;
    let mut k = 0;
    while left > 0 {
        for (j, &width) in widths.bits[..widths.used].iter().enumerate() {
            if k < width && left > 0 {
                index[j] |= u64::from((key[j] >> (width - 1 - k)) & 1) << k;
                past = 4 * k + j + 1;
                left -= 1;
            }
        }
        k += 1;
    }
    (index, past)
}

/// The place of the next split step from place g on.
fn step_from(bits: &[usize; 4], mut g: usize) -> usize {
    while g / 4 >= bits[g % 4] {
        g += 1;
    }
    g
}

/// Doubles a directory from depth t to t + 1.
#[inline(never)]
pub fn double(widths: &Widths, t: usize, dir: &mut [u32]) -> Option<()> {
    if !widths.directory_fits(t + 1, dir.len()) {
        return None;
    }
    let bits = &widths.bits;
    let g = step_from(bits, cell(widths, [0; 4], t).1);
    let z = g % 4;
    for a in 1 << t..2 << t {
        let mut rest = a as u64;
        let mut index = [0; 4];
        for j in (0..4).rev() {
            if j != z {
                let depth = depth_before(bits, g, j);
                index[j] = rest & ((1 << depth) - 1);
                rest >>= depth;
            }
        }
        index[z] = rest - (1 << (g / 4));
        dir[a] = dir[locate(bits, &index) as usize];
    }
    Some(())
}

/// Sets every cell of the region of a key's first x split bits, in a directory of depth t.
#[inline(never)]
pub fn fill(widths: &Widths, key: [u32; 4], x: usize, t: usize, word: u32, dir: &mut [u32]) -> Option<()> {
    if !widths.directory_fits(t, dir.len()) || x > t {
        return None;
    }
    let (index, g) = cell(widths, key, x);
    let a = locate(&widths.bits, &index);
    fill_from(&widths.bits, index, a, g, t - x, word, dir);
    Some(())
}

/// The same for the region at an index vector and its address, with so many bits left from place g on.
fn fill_from(bits: &[usize; 4], index: [u64; 4], a: u64, g: usize, left: usize, word: u32, dir: &mut [u32]) {
    if left == 0 {
        dir[a as usize] = word;
        return;
    }
    let g = step_from(bits, g);
    let mut upper = index;
    upper[g % 4] |= 1 << (g / 4);
    let b = address_before(bits, &upper, g);
    fill_from(bits, index, a, g + 1, left - 1, word, dir);
    fill_from(bits, upper, b, g + 1, left - 1, word, dir);
}

// ---- pages

/// The first n records of a page, each as its bytes.
fn records(page: &[u8], n: usize) -> Option<&[[u8; 12]]> {
    let (records, _) = page.get(2..)?.as_chunks();
    records.get(..n)
}

/// The packed key of a record.
fn key_of(record: &[u8; 12]) -> u64 {
    let (key, _) = record.split_first_chunk().expect("8 of 12 bytes");
    u64::from_le_bytes(*key)
}

/// The place of a packed key among the n records of a page.
#[inline(never)]
pub fn find(page: &[u8], n: usize, widths: &Widths, key: u64) -> Option<Result<usize, usize>> {
    let records = records(page, n)?;
    Some(records.binary_search_by(|record| compare(widths, key_of(record), key)))
}

/// Split order of packed keys: the attribute whose values differ first decides, of several the first one.
fn compare(widths: &Widths, x: u64, y: u64) -> Ordering {
    let mut order = Ordering::Equal;
    let mut first = 0;
    for (j, &width) in widths.bits[..widths.used].iter().enumerate() {
        // the value's bits at the top
        let [a, b] = [x, y].map(|key| ((key >> (16 * j)) as u16) << (16 - width));
        let differ = a ^ b;
        // whether the highest bit of `differ` is above that of `first`
        if first < differ && first < (first ^ differ) {
            first = differ;
            order = a.cmp(&b);
        }
    }
    order
}

/// The bits that a query gives, and what they are.
pub struct Pattern {
    mask: u64,
    value: u64,
}

impl Pattern {
    pub fn new(query: [Option<u32>; 4]) -> Option<Pattern> {
        let mut pattern = Pattern { mask: 0, value: 0 };
        for (j, wanted) in query.into_iter().enumerate() {
            if let Some(value) = wanted {
                pattern.mask |= 0xffff << (16 * j);
                pattern.value |= u64::from(u16::try_from(value).ok()?) << (16 * j);
            }
        }
        Some(pattern)
    }
}

/// Writes the records that match, of the n of a page, into the output from its record `total` on, while whole
/// ones fit. Returns how many match, with the `total` before.
#[inline(never)]
pub fn put_matches(page: &[u8], n: usize, pattern: &Pattern, out: &mut [u8], total: usize) -> Option<usize> {
    let (out, _) = out.as_chunks_mut();
    let mut found = total;
    for record in records(page, n)? {
        if key_of(record) & pattern.mask == pattern.value {
            if let Some(place) = out.get_mut(found) {
                *place = *record;
            }
            found += 1;
        }
    }
    Some(found)
}
