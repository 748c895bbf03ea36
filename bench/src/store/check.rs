//! Whether the memory shows a sound store.
use super::page::key_of;
use super::{depth_of, page_of, Store};

/// A region: its depth, its first cell's index vector, and the bits of packed keys that its string fixes.
#[derive(Clone, Copy)]
struct Region {
    depth: usize,
    index: [u32; 4],
    mask: u64,
    pattern: u64,
}

/// What a region has: records, leaves with a page, its greatest leaf depth.
struct Seen {
    records: usize,
    pages: usize,
    depth: usize,
}

impl Store {
    #[inline(never)]
    pub fn check(&self) -> bool {
        let mut tally = [0; 13];
        let whole = Region { depth: 0, index: [0; 4], mask: 0, pattern: 0 };
        let Some(seen) = self.inspect(whole, &mut tally) else {
            return false;
        };
        let used = (0..self.page_limit).filter(|&g| self.page(g).count() != 0).count();
        seen.depth == self.depth && tally == self.tally && used == seen.pages
    }

    /// What a region has, if it passes; its leaves are added to the tally.
    fn inspect(&self, region: Region, tally: &mut [u32; 13]) -> Option<Seen> {
        let word = self.dir[self.map.address(region.index)];
        if depth_of(word) <= region.depth {
            return self.inspect_leaf(region, word, tally);
        }
        let [lower, upper] = self.sides(region)?;
        let (lower, upper) = (self.inspect(lower, tally)?, self.inspect(upper, tally)?);
        let records = lower.records + upper.records;
        let depth = lower.depth.max(upper.depth);
        (records > self.capacity()).then_some(Seen { records, pages: lower.pages + upper.pages, depth })
    }

    fn inspect_leaf(&self, region: Region, word: u32, tally: &mut [u32; 13]) -> Option<Seen> {
        if depth_of(word) != region.depth || !self.same_words(region, word) {
            return None;
        }
        tally[region.depth] += 1;
        let depth = region.depth;
        let Some(g) = page_of(word) else {
            return Some(Seen { records: 0, pages: 0, depth });
        };
        if g >= self.page_limit || !(1..=self.capacity()).contains(&self.page(g).count()) {
            return None;
        }
        let page = self.page(g);
        let records = page.records();
        let mask = region.mask | !self.map.value_bits();
        let within = records.iter().all(|record| key_of(record) & mask == region.pattern);
        let rising = records.windows(2).all(|pair| self.map.before(key_of(&pair[0]), key_of(&pair[1])));
        (within && rising).then_some(Seen { records: records.len(), pages: 1, depth })
    }

    /// Whether all cells of a region hold a word.
    fn same_words(&self, region: Region, word: u32) -> bool {
        match self.sides(region) {
            None => self.dir[self.map.address(region.index)] == word,
            Some(sides) => sides.into_iter().all(|side| self.same_words(side, word)),
        }
    }

    /// The two sides of a region; none at the directory's depth.
    fn sides(&self, region: Region) -> Option<[Region; 2]> {
        if region.depth >= self.depth {
            return None;
        }
        let step = &self.map.steps[region.depth];
        let bit = 1 << step.place;
        let lower = Region { depth: region.depth + 1, mask: region.mask | bit, ..region };
        let mut upper = Region { pattern: region.pattern | bit, ..lower };
        upper.index[step.attribute] |= 1 << step.bit;
        Some([lower, upper])
    }
}
