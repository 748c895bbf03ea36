//! The store in plain safe Rust, as a programmer writes it who needs no proof: the layout and the ideas of the proved
//! one, tables of the shape made once, and trust in its own memory. It never answers 9, and has no signed attributes.
mod change;
mod check;
mod file;
mod map;
mod page;
mod query;
mod range;

use crate::plain::Widths;
use map::Map;
use mdeh_tests::host::{Refused, Shape};
use mdeh_tests::plain::refusal::{absent, refusal};
use page::Page;

/// A directory of words and the bytes of pages, with the state beside them.
#[derive(Clone)]
pub struct Store {
    shape: Shape,
    map: Map,
    widths: Widths,
    /// P, L and T
    page_limit: usize,
    depth_limit: usize,
    depth: usize,
    tally: [u32; 13],
    dir: Vec<u32>,
    pages: Vec<u8>,
    /// no page below it is free
    first_free: usize,
}

impl Store {
    /// A store without records in so many words and bytes. The shape is within its bounds and marks no attribute.
    pub fn new(shape: Shape, words: usize, bytes: usize) -> Store {
        assert_eq!(shape.signs, 0, "no attribute is signed");
        let used = &shape.widths[..shape.attributes as usize];
        let total = used.iter().sum::<u32>() as usize;
        let size = Page::size(shape.capacity as usize);
        let mut tally = [0; 13];
        tally[0] = 1;
        Store {
            shape,
            map: Map::new(used),
            widths: Widths::new(used).expect("no width is above 16"),
            page_limit: (bytes / size).min(4096),
            depth_limit: (words.ilog2() as usize).min(total).min(12),
            depth: 0,
            tally,
            dir: vec![0; words],
            pages: vec![0; bytes],
            first_free: 0,
        }
    }

    /// The payload of a key's record and the depth of its leaf. Refused with 3 or 5.
    #[inline(never)]
    pub fn lookup(&self, key: [i32; 4]) -> Result<(u32, u32), Refused> {
        let packed = self.map.pack(key).ok_or(refusal(3))?;
        let word = self.dir[self.map.address(self.map.cell(key, self.depth))];
        let depth = depth_of(word) as u32;
        let page = self.page(page_of(word).ok_or(absent(depth))?);
        page.find(packed).map(|i| (page.payload(i), depth)).ok_or(absent(depth))
    }

    /// The words of the state, the directory and the pages.
    pub fn image(&self) -> (Vec<u32>, Vec<u32>, Vec<u8>) {
        let Shape { attributes, widths, capacity, signs } = self.shape;
        let limits = [self.page_limit as u32, self.depth_limit as u32, self.depth as u32];
        let state = [&[attributes][..], &widths, &[capacity], &limits, &self.tally, &[signs]].concat();
        (state, self.dir.clone(), self.pages.clone())
    }

    /// Pages in use, and T.
    pub fn extent(&self) -> (usize, usize) {
        ((0..self.page_limit).filter(|&g| self.page(g).count() > 0).count(), self.depth)
    }

    fn capacity(&self) -> usize {
        self.shape.capacity as usize
    }

    fn page(&self, g: usize) -> Page<&[u8]> {
        let size = Page::size(self.capacity());
        Page { bytes: &self.pages[g * size..(g + 1) * size] }
    }

    fn page_mut(&mut self, g: usize) -> Page<&mut [u8]> {
        let size = Page::size(self.capacity());
        Page { bytes: &mut self.pages[g * size..(g + 1) * size] }
    }
}

/// The page that a word names.
fn page_of(word: u32) -> Option<usize> {
    (word as usize & 0xffff).checked_sub(1)
}

/// The depth that a word names.
fn depth_of(word: u32) -> usize {
    word as usize >> 16
}

/// The word of a leaf.
fn word_of(page: Option<usize>, depth: usize) -> u32 {
    (depth << 16 | page.map_or(0, |g| g + 1)) as u32
}

#[cfg(test)]
mod tests;
