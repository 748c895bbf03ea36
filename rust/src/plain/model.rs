//! The plain model (document 01, "The plain model of demand 3"; document 02, requests 6 and 7): a list of records,
//! scanned in full for every answer.
use super::leaves::{greatest_depth, leaves, Leaf, Record};
use super::range::{range_refused, Intervals};
use super::refusal::{absent, insert_refused, key_refused, page_size, query_refused};
use super::refusal::{refusal, shape_refused, used_widths};
use super::value::{encoding, used_signs, value_of};
use crate::host::{Refused, Shape};
use crate::reference::steps;

/// A fixed shape, P and L, and a set of records in any order.
#[derive(Clone, Debug)]
pub struct Model {
    pub shape: Shape,
    pub page_limit: usize,
    pub depth_limit: usize,
    pub records: Vec<Record>,
    widths: Vec<u32>,
    steps: Vec<(u32, usize)>,
}

impl Model {
    /// The model of an accepted Fresh, or the refusal.
    pub fn fresh(mut shape: Shape, words: usize, bytes: usize) -> Result<Model, Refused> {
        if let Some(refused) = shape_refused(shape) {
            return Err(refused);
        }
        let whole_pages = bytes / page_size(shape);
        if words == 0 || whole_pages == 0 {
            return Err(refusal(2));
        }
        // "the smallest of 12, W and the rounded-down base-2 logarithm of the directory's length"
        let bits = used_widths(shape).iter().sum::<u32>() as usize;
        let logarithm = (0..64).rev().find(|&l| words >> l != 0).unwrap();
        shape.signs = used_signs(shape);
        Ok(Model::new(shape, whole_pages.min(4096), logarithm.min(bits).min(12)))
    }

    /// The model without records of this shape, P and L. Marks past d are held as they are.
    pub fn new(mut shape: Shape, page_limit: usize, depth_limit: usize) -> Model {
        // "Fresh holds them as 0"
        shape.widths[shape.attributes as usize..].fill(0);
        let widths = used_widths(shape);
        let steps = steps(&widths);
        Model { shape, page_limit, depth_limit, records: vec![], widths, steps }
    }

    /// The widths of the attributes in use.
    pub fn widths(&self) -> &[u32] {
        &self.widths
    }

    /// "The split bits of a key are its bits in this order", those of its encodings.
    pub fn split_bits(&self, key: [i32; 4]) -> Vec<bool> {
        self.steps.iter().map(|&(k, j)| self.bit(k, j, key[j])).collect()
    }

    /// The key with these first split bits, and 0 in the others.
    pub fn key_of(&self, bits: &[bool]) -> [i32; 4] {
        let mut encodings = [0; 4];
        for (&bit, &(k, j)) in bits.iter().zip(&self.steps) {
            encodings[j] |= u32::from(bit) << (self.widths[j] - 1 - k);
        }
        [0, 1, 2, 3].map(|j| value_of(self.shape, j, encodings[j]))
    }

    /// Bit k of a value of attribute j: "Bit 0 of an encoding is its most significant of w_j bits".
    fn bit(&self, k: u32, j: usize, value: i32) -> bool {
        encoding(self.shape, j, value) >> (self.widths[j] - 1 - k) & 1 == 1
    }

    /// The attribute of a split step, and what its bit counts in a value.
    pub fn split_step(&self, t: usize) -> (usize, i32) {
        let (k, j) = self.steps[t];
        (j, 1 << (self.widths[j] - 1 - k))
    }

    pub fn record(&self, key: [i32; 4], payload: u32) -> Record {
        Record { bits: self.split_bits(key), key, payload }
    }

    /// The leaves of the set, in split order.
    pub fn leaves(&self) -> Vec<Leaf> {
        leaves(self.shape.capacity as usize, &self.records)
    }

    /// "how deep a key lies": the least x such that at most b stored keys begin with its first x split bits. A region
    /// is "divided exactly if more than b keys begin with it", so that every shorter beginning is.
    pub fn depth(&self, key: [i32; 4]) -> u32 {
        let bits = self.split_bits(key);
        let beginning = |x| self.records.iter().filter(|record| record.bits.starts_with(&bits[..x])).count();
        let x = (0..=bits.len()).find(|&x| beginning(x) <= self.shape.capacity as usize);
        x.expect("no two keys have all split bits in common") as u32
    }

    /// Whether a store of these limits can hold a set: T at most L, and a page for each leaf that is not empty.
    pub fn holds(&self) -> bool {
        let leaves = self.leaves();
        let pages = leaves.iter().filter(|leaf| !leaf.records.is_empty()).count();
        greatest_depth(&leaves) <= self.depth_limit && pages <= self.page_limit
    }

    /// "A query agrees with a region if every bit of a given attribute in its string equals the query's."
    pub fn agrees(&self, region: &[bool], query: [Option<i32>; 4]) -> bool {
        region
            .iter()
            .zip(&self.steps)
            .all(|(&bit, &(k, j))| query[j].is_none_or(|value| self.bit(k, j, value) == bit))
    }

    /// The leaves that agree with a query.
    pub fn agreeing(&self, query: [Option<i32>; 4]) -> Vec<Leaf> {
        let mut leaves = self.leaves();
        leaves.retain(|leaf| self.agrees(&leaf.bits, query));
        leaves
    }

    // ---- calls

    /// The depth of the key's leaf "afterwards".
    pub fn insert(&mut self, key: [i32; 4], payload: u32) -> Result<u32, Refused> {
        if let Some(refused) = insert_refused(self.shape, key, payload) {
            return Err(refused);
        }
        self.join(key, payload).map(|()| self.depth(key))
    }

    /// An insert of a key within its bounds, after 11: 4, 6 or 7.
    pub fn join(&mut self, key: [i32; 4], payload: u32) -> Result<(), Refused> {
        if self.records.iter().any(|record| record.key == key) {
            return Err(refusal(4));
        }
        let new = self.record(key, payload);
        let first = &new.bits[..self.depth_limit];
        let sharing = self.records.iter().filter(|record| record.bits.starts_with(first)).count();
        if sharing >= self.shape.capacity as usize {
            return Err(refusal(6));
        }
        self.records.push(new);
        let pages = self.leaves().iter().filter(|leaf| !leaf.records.is_empty()).count();
        if pages > self.page_limit {
            self.records.pop();
            return Err(refusal(7));
        }
        Ok(())
    }

    /// The depth of the key's leaf "afterwards"; with 5 of the present one.
    pub fn delete(&mut self, key: [i32; 4]) -> Result<u32, Refused> {
        if key_refused(self.shape, key) {
            return Err(refusal(3));
        }
        let place = self.records.iter().position(|record| record.key == key);
        self.records.remove(place.ok_or_else(|| absent(self.depth(key)))?);
        Ok(self.depth(key))
    }

    /// The payload, 1 page read, and the depth of the key's leaf, which 5 carries too.
    pub fn lookup(&self, key: [i32; 4]) -> Result<(u32, u32, u32), Refused> {
        if key_refused(self.shape, key) {
            return Err(refusal(3));
        }
        let record = self.records.iter().find(|record| record.key == key);
        let depth = self.depth(key);
        record.map(|record| (record.payload, 1, depth)).ok_or(absent(depth))
    }

    /// Written, total and reads.
    pub fn query(&self, query: [Option<i32>; 4], out: &mut [u8]) -> Result<(u64, u64, u64), Refused> {
        if let Some(refused) = query_refused(self.shape, query) {
            return Err(refused);
        }
        Ok(self.list(|record| record.matches(query), &self.agreeing(query), out))
    }

    /// Written, total and reads.
    pub fn range(&self, range: Intervals, out: &mut [u8]) -> Result<(u64, u64, u64), Refused> {
        if let Some(refused) = range_refused(self.shape, range) {
            return Err(refused);
        }
        Ok(self.list(|record| record.lies_in(range), &self.meeting(range), out))
    }

    /// Writes the wanted records in split order while whole ones fit, and counts written, all of them, and those of the
    /// leaves that are not empty.
    fn list(&self, wanted: impl Fn(&Record) -> bool, leaves: &[Leaf], out: &mut [u8]) -> (u64, u64, u64) {
        let mut found: Vec<&Record> = self.records.iter().filter(|record| wanted(record)).collect();
        found.sort_by(|r, s| r.bits.cmp(&s.bits));
        let written = found.len().min(out.len() / 12);
        for (i, record) in found[..written].iter().enumerate() {
            out[12 * i..12 * i + 12].copy_from_slice(&record.bytes());
        }
        let reads = leaves.iter().filter(|leaf| !leaf.records.is_empty()).count();
        (written as u64, found.len() as u64, reads as u64)
    }
}
