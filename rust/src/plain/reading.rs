//! A store read as its words and pages say, sound or not (document 01, "Lent memory").
use super::image::{depth_of, page_of, Image, DEPTH, DEPTH_LIMIT, PAGE_LIMIT, TALLY};
use super::judge::limits_hold;
use super::model::Model;
use super::refusal::key_refused;
use crate::cells::Cells;

/// A store after the early numbers whose limits hold, and the cells of its widths, in directories up to its depth at
/// least.
pub struct Reading<'a> {
    pub image: &'a Image,
    pub cells: &'a Cells,
    /// of its shape, P and L, without records
    pub model: Model,
}

impl Reading<'_> {
    pub fn new<'a>(image: &'a Image, cells: &'a Cells) -> Reading<'a> {
        assert!(limits_hold(image));
        let [p, l] = [PAGE_LIMIT, DEPTH_LIMIT].map(|place| image.state[place] as usize);
        Reading { image, cells, model: Model::new(image.shape(), p, l) }
    }

    /// T.
    pub fn depth(&self) -> usize {
        self.image.state[DEPTH] as usize
    }

    /// The word of a string's cell, that of its first T bits; fewer are followed by zeros.
    pub fn word(&self, string: &[bool]) -> u32 {
        self.image.dir[self.cells.address(&string[..string.len().min(self.depth())])]
    }

    /// The depth in the word of a key's cell.
    pub fn depth_at(&self, key: [i32; 4]) -> u32 {
        depth_of(self.word(&self.model.split_bits(key))) as u32
    }

    /// "Every cell whose split bits begin with a leaf holds that leaf's word": whether they hold this one.
    pub fn holds(&self, string: &[bool], word: u32) -> bool {
        self.cells.region(string, self.depth()).iter().all(|cell| self.image.dir[cell.address] == word)
    }

    /// Whether a sound store with this T, P and tally can have the word of a leaf: bits 20-31 are 0, there is a leaf of
    /// its depth, and its page is one of the P.
    pub fn word_fair(&self, word: u32) -> bool {
        depth_of(word) <= self.depth()
            && self.image.state[TALLY + depth_of(word)] != 0
            && page_of(word).is_none_or(|g| g < self.model.page_limit)
    }

    /// Whether page g can be that of the leaf with this string, as far as a call looks: it has 1 to b records, and
    /// the first and the last of them have values in bounds and begin with the string.
    pub fn page_fair(&self, g: usize, string: &[bool]) -> bool {
        self.count_fair(g) && [0, self.image.count(g) - 1].iter().all(|&i| self.begins(g, i, string))
    }

    /// Whether page g has 1 to b records.
    pub fn count_fair(&self, g: usize) -> bool {
        (1..=self.model.shape.capacity as usize).contains(&self.image.count(g))
    }

    /// Whether record i of page g has values in bounds and begins with a string.
    fn begins(&self, g: usize, i: usize, string: &[bool]) -> bool {
        let (key, _) = self.image.content(g, i);
        !key_refused(self.model.shape, key) && self.model.split_bits(key).starts_with(string)
    }

    /// The keys of all records in pages, of up to b in each.
    pub fn keys(&self) -> Vec<[i32; 4]> {
        let most = self.model.shape.capacity as usize;
        let of_page = |g| (0..self.image.count(g).min(most)).map(move |i| self.image.content(g, i).0);
        (0..self.model.page_limit).flat_map(of_page).collect()
    }

    /// The keys of page g by their strings, if all of them begin with this one and stand in split order.
    pub fn ordered(&self, g: usize, string: &[bool]) -> Option<Vec<Vec<bool>>> {
        let count = self.image.count(g);
        let all = (0..count).all(|i| self.begins(g, i, string));
        let bits = |i| self.model.split_bits(self.image.content(g, i).0);
        let keys: Vec<Vec<bool>> = (0..count).map(bits).collect();
        (all && keys.windows(2).all(|pair| pair[0] < pair[1])).then_some(keys)
    }
}

/// The sibling of a region: its string with the other last bit.
pub fn sibling(string: &[bool]) -> Vec<bool> {
    let (last, others) = string.split_last().expect("the empty string has no sibling");
    [others, &[!last]].concat()
}
