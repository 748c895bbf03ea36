//! Damage that a call meets and has to tell, with 9: words and pages that no sound store has, and a region that a
//! change would set although other words stand in it. On any other store a call answers 9 or what is ordinary for it.
use super::image::{depth_of, page_of, word_of, SIGNS, TALLY};
use super::range::Intervals;
use super::reading::{sibling, Reading};
use crate::cells::Cell;

impl Reading<'_> {
    /// Whether a lookup of a key has to be answered with 9, after 1, 14, 15, 2 and 3.
    pub fn lookup_told(&self, key: [i32; 4]) -> bool {
        let bits = self.model.split_bits(key);
        self.leaf_told(&bits, self.word(&bits))
    }

    /// Whether a query has to be answered with 9, after 1, 14, 15, 2, 8 and 3.
    pub fn query_told(&self, query: [Option<i32>; 4]) -> bool {
        self.walk_told(&[], &|side| self.model.agrees(side, query))
    }

    /// Whether a range has to be answered with 9, after 1, 14, 15, 2, 8, 3 and 10.
    pub fn range_told(&self, range: Intervals) -> bool {
        self.walk_told(&[], &|side| self.model.meets(side, range))
    }

    /// Whether an insert of a key has to be answered with 9, after 1, 14, 15, 2, 3 and 11.
    pub fn insert_told(&self, key: [i32; 4]) -> bool {
        let bits = self.model.split_bits(key);
        let word = self.word(&bits);
        if self.leaf_told(&bits, word) {
            return true;
        }
        // a leaf that gets a page or is divided, where no other number is due
        let leaf = &bits[..depth_of(word)];
        let sets = page_of(word).is_none_or(|g| self.divides(g, leaf, &bits));
        let free = (0..self.model.page_limit).any(|g| self.image.count(g) == 0);
        sets && free && !self.holds(leaf, word)
    }

    /// Whether a delete of a key has to be answered with 9, after 1, 14, 15, 2 and 3.
    pub fn delete_told(&self, key: [i32; 4]) -> bool {
        let bits = self.model.split_bits(key);
        let word = self.word(&bits);
        if self.leaf_told(&bits, word) {
            return true;
        }
        let Some(g) = page_of(word) else { return false };
        let count = self.image.count(g);
        if !(0..count).any(|i| self.image.content(g, i).0 == key) {
            return false;
        }
        let leaf = &bits[..depth_of(word)];
        // a leaf that stays is set where it is emptied
        let stays_told = count == 1 && !self.holds(leaf, word);
        if leaf.is_empty() {
            return stays_told;
        }
        let other = self.word(&sibling(leaf));
        if !self.word_fair(other) || depth_of(other) < leaf.len() {
            return true;
        }
        if depth_of(other) > leaf.len() {
            return stays_told;
        }
        self.pair_told(leaf, word, other)
    }

    // ---- words and pages

    /// Whether the word of a string's leaf, or its page, is none of a sound store.
    fn leaf_told(&self, bits: &[bool], word: u32) -> bool {
        !self.word_fair(word) || page_of(word).is_some_and(|g| !self.page_fair(g, &bits[..depth_of(word)]))
    }

    /// The same of the leaves below a region that a query or a range enters: "It walks the regions from the empty
    /// string". A word that names less than its region's depth is none of a sound store.
    fn walk_told(&self, region: &[bool], enters: &dyn Fn(&[bool]) -> bool) -> bool {
        let word = self.word(region);
        if depth_of(word) > self.depth() || depth_of(word) < region.len() {
            return true;
        }
        if depth_of(word) == region.len() {
            return self.leaf_told(region, word);
        }
        [false, true].into_iter().any(|bit| {
            let side = [region, &[bit]].concat();
            enters(&side) && self.walk_told(&side, enters)
        })
    }

    // ---- regions that a change sets

    /// Whether an insert into the leaf with page g divides it: its page is full, in order and without the key, and not
    /// all of its keys share their first L split bits with the new one.
    fn divides(&self, g: usize, leaf: &[bool], bits: &[bool]) -> bool {
        let first = &bits[..self.model.depth_limit];
        self.ordered(g, leaf).is_some_and(|keys| {
            keys.len() == self.model.shape.capacity as usize
                && !keys.iter().any(|stored| stored == bits)
                && !keys.iter().all(|stored| stored.starts_with(first))
        })
    }

    /// Whether a delete from a leaf with a sibling of its own depth is told: the sibling has to have another page, whose
    /// count, first and last record are those of its leaf; where the two are joined, what is set is tested.
    fn pair_told(&self, leaf: &[bool], word: u32, other: u32) -> bool {
        let (Some(g), Some(h)) = (page_of(word), page_of(other)) else { return true };
        if g == h || !self.page_fair(h, &sibling(leaf)) {
            return true;
        }
        let stored = self.image.count(g) + self.image.count(h) - 1;
        stored <= self.model.shape.capacity as usize && self.join_told(leaf, word, other)
    }

    /// Whether a join of a leaf with its sibling and with the empty siblings above is told: a tally with more leaves
    /// than there are regions, a region whose cells do not all hold their leaf's word, a T that cuts words off.
    fn join_told(&self, leaf: &[bool], word: u32, other: u32) -> bool {
        let tally = &self.image.state[TALLY..SIGNS];
        if tally.iter().enumerate().any(|(x, &leaves)| leaves > 1 << x) {
            return true;
        }
        if !self.holds(leaf, word) || !self.holds(&sibling(leaf), other) {
            return true;
        }
        let mut top = leaf.len() - 1;
        while top > 0 && self.word(&sibling(&leaf[..top])) == word_of(None, top) {
            if !self.holds(&sibling(&leaf[..top]), word_of(None, top)) {
                return true;
            }
            top -= 1;
        }
        !self.folds(&leaf[..top], self.joined_depth(top, leaf.len()))
    }

    /// T by the tally after joins from depth x up to `top`: two leaves of a depth give way to one above.
    fn joined_depth(&self, top: usize, x: usize) -> usize {
        let mut tally = self.image.state[TALLY..SIGNS].to_vec();
        for y in (top..x).rev() {
            tally[y + 1] = tally[y + 1].saturating_sub(2);
            tally[y] += 1;
        }
        (0..=self.depth()).rev().find(|&y| tally[y] != 0).unwrap_or(0)
    }

    /// Whether each cell outside a region holds the word of the cell that it folds onto in a directory of depth u.
    fn folds(&self, region: &[bool], u: usize) -> bool {
        self.cells
            .all(self.depth())
            .iter()
            .all(|Cell { bits, .. }| bits.starts_with(region) || self.word(&bits[..u]) == self.word(bits))
    }
}
