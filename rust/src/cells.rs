//! Split bits and cells from document 01's words, by strings of bits. Addresses are those of the doubling
//! array. Nothing here is taken from the library.
use crate::plain::image::{Image, DEPTH_LIMIT};
use crate::plain::refusal::used_widths;
use crate::reference::{steps, DoublingArray};
use std::collections::HashMap;

/// The cells of some widths, in directories of every depth up to a greatest.
pub struct Cells {
    widths: Vec<u32>,
    steps: Vec<(u32, usize)>,
    addresses: HashMap<[u64; 4], usize>,
}

/// One cell: its string of split bits and its address.
pub struct Cell {
    pub bits: Vec<bool>,
    pub address: usize,
}

impl Cells {
    /// The cells of these widths in directories of depth 0 to `greatest`.
    pub fn new(widths: &[u32], greatest: usize) -> Cells {
        let array = DoublingArray::new(widths, greatest);
        let addresses = array.vectors.into_iter().enumerate().map(|(a, vector)| (vector, a)).collect();
        Cells { widths: widths.to_vec(), steps: steps(widths), addresses }
    }

    /// The cells of a store, in directories up to its L.
    pub fn of_store(image: &Image) -> Cells {
        Cells::new(&used_widths(image.shape()), image.state[DEPTH_LIMIT] as usize)
    }

    /// "The split bits of a key are its bits in this order", those of all steps; "Bit 0 of an encoding is its
    /// most significant of w_j bits".
    pub fn split_bits(&self, key: [u32; 4]) -> Vec<bool> {
        self.steps.iter().map(|&(k, j)| (key[j] >> (self.widths[j] - 1 - k)) & 1 == 1).collect()
    }

    /// "A cell's index i_j sums β_k × 2^k over k < h_j, β_k being bit k of attribute j": the index vector of
    /// a string of split bits.
    pub fn index_vector(&self, bits: &[bool]) -> [u64; 4] {
        let mut index = [0; 4];
        for (&(k, j), &bit) in self.steps.iter().zip(bits) {
            index[j] += u64::from(bit) << k;
        }
        index
    }

    /// The address of the cell of a string.
    pub fn address(&self, bits: &[bool]) -> usize {
        self.addresses[&self.index_vector(bits)]
    }

    /// Every cell of a directory of depth t.
    pub fn all(&self, t: usize) -> Vec<Cell> {
        self.region(&[], t)
    }

    /// Every cell of a directory of depth t whose split bits begin with a string.
    pub fn region(&self, string: &[bool], t: usize) -> Vec<Cell> {
        let cell = |bits: Vec<bool>| Cell { address: self.address(&bits), bits };
        strings(string, t).into_iter().map(cell).collect()
    }
}

/// All strings of so many bits that begin with this one.
fn strings(beginning: &[bool], count: usize) -> Vec<Vec<bool>> {
    let mut all = vec![beginning.to_vec()];
    for _ in beginning.len()..count {
        all = all.iter().flat_map(|bits| [false, true].map(|bit| [&bits[..], &[bit]].concat())).collect();
    }
    all
}
