//! Insert and delete.
use super::page::{key_of, record_of};
use super::{depth_of, page_of, word_of, Store};
use crate::plain::{double, fill};
use mdeh_tests::host::Refused;
use mdeh_tests::plain::refusal::{absent, refusal};

impl Store {
    /// Adds a record, and returns the depth of its leaf then. Refused with 3, 11, 4, 6 or 7.
    #[inline(never)]
    pub fn insert(&mut self, key: [i32; 4], payload: u32) -> Result<u32, u32> {
        let packed = self.map.pack(key).ok_or(3u32)?;
        if payload == 0 {
            return Err(11);
        }
        self.add(key, packed, record_of(packed, payload))
    }

    /// Adds a record with this key, which is within its bounds, and packed. Refused with 4, 6 or 7.
    #[inline]
    pub(super) fn add(&mut self, key: [i32; 4], packed: u64, record: [u8; 12]) -> Result<u32, u32> {
        let word = self.dir[self.map.address(self.map.cell(key, self.depth))];
        let x = depth_of(word);
        let Some(g) = page_of(word) else {
            let g = self.free_page().ok_or(7u32)?;
            self.page_mut(g).put(0, record);
            self.set_region(key, x, word_of(Some(g), x));
            return Ok(x as u32);
        };
        let page = self.page(g);
        let records = page.records();
        let place = records.partition_point(|stored| self.map.before(key_of(stored), packed));
        if records.get(place).is_some_and(|stored| key_of(stored) == packed) {
            return Err(4);
        }
        if records.len() < self.capacity() {
            self.page_mut(g).put(place, record);
            return Ok(x as u32);
        }
        let mut all = records.to_vec();
        all.insert(place, record);
        self.divide(key, x, g, &all)
    }

    /// Divides the leaf of a key, of depth x and with page g, that has one record too many. The depth of the key's leaf
    /// then.
    fn divide(&mut self, key: [i32; 4], x: usize, g: usize, all: &[[u8; 12]]) -> Result<u32, u32> {
        let (least, greatest) = (key_of(&all[0]), key_of(&all[all.len() - 1]));
        let bit = self.map.first_difference(least, greatest).expect("no key stands twice");
        if bit >= self.depth_limit {
            return Err(6);
        }
        let other = self.free_page().ok_or(7u32)?;
        let place = self.map.steps[bit].place;
        let (zeros, ones) = all.split_at(all.partition_point(|record| key_of(record) >> place & 1 == 0));
        self.page_mut(g).fill(zeros);
        self.page_mut(other).fill(ones);
        while self.depth <= bit {
            double(&self.widths, self.depth, &mut self.dir).expect("the directory fits");
            self.depth += 1;
        }
        self.tally[x] -= 1;
        for depth in x + 1..=bit {
            self.tally[depth] += 1;
            self.set_region(self.flipped(key, depth - 1), depth, word_of(None, depth));
        }
        self.tally[bit + 1] += 2;
        let (own, far) = if self.split_bit(key, bit) { (other, g) } else { (g, other) };
        self.set_region(key, bit + 1, word_of(Some(own), bit + 1));
        self.set_region(self.flipped(key, bit), bit + 1, word_of(Some(far), bit + 1));
        Ok(bit as u32 + 1)
    }

    /// Takes a key's record out, and returns the depth of the key's leaf then. Refused with 3 or 5.
    #[inline(never)]
    pub fn delete(&mut self, key: [i32; 4]) -> Result<u32, Refused> {
        let packed = self.map.pack(key).ok_or(refusal(3))?;
        let word = self.dir[self.map.address(self.map.cell(key, self.depth))];
        let absent = absent(depth_of(word) as u32);
        let g = page_of(word).ok_or(absent)?;
        let place = self.page(g).find(packed).ok_or(absent)?;
        self.page_mut(g).take(place);
        let (x, page) = self.join(key, depth_of(word), g);
        let joined = word_of(page, x);
        if joined != word {
            while self.tally[self.depth] == 0 {
                self.depth -= 1;
            }
            self.set_region(key, x, joined);
        }
        Ok(x as u32)
    }

    /// Joins the leaf of a key, of depth x and with page g, with its sibling while both fit one page. The depth of the
    /// leaf that stands, and its page.
    fn join(&mut self, key: [i32; 4], mut x: usize, g: usize) -> (usize, Option<usize>) {
        let mut page = Some(g);
        if self.page(g).count() == 0 {
            self.first_free = self.first_free.min(g);
            page = None;
        }
        while x > 0 {
            let sibling = self.flipped(key, x - 1);
            let word = self.dir[self.map.address(self.map.cell(sibling, x))];
            let count = |page: Option<usize>| page.map_or(0, |g| self.page(g).count());
            if depth_of(word) != x || count(page) + count(page_of(word)) > self.capacity() {
                break;
            }
            page = match (page, page_of(word)) {
                (Some(own), Some(other)) if self.split_bit(key, x - 1) => Some(self.merge(other, own)),
                (Some(own), Some(other)) => Some(self.merge(own, other)),
                (own, other) => own.or(other),
            };
            self.tally[x] -= 2;
            x -= 1;
            self.tally[x] += 1;
        }
        (x, page)
    }

    /// Puts the records of page h after those of page g; h is free then.
    fn merge(&mut self, g: usize, h: usize) -> usize {
        let all = [self.page(g).records(), self.page(h).records()].concat();
        self.page_mut(g).fill(&all);
        self.page_mut(h).set_count(0);
        self.first_free = self.first_free.min(h);
        g
    }

    /// The first free page.
    fn free_page(&mut self) -> Option<usize> {
        let free = (self.first_free..self.page_limit).find(|&g| self.page(g).count() == 0);
        self.first_free = free.unwrap_or(self.page_limit);
        free
    }

    /// Sets the words of the region of a key's first x split bits.
    fn set_region(&mut self, key: [i32; 4], x: usize, word: u32) {
        let key = key.map(|value| value as u32);
        fill(&self.widths, key, x, self.depth, word, &mut self.dir).expect("the directory fits");
    }

    /// The key with another bit at a split step.
    fn flipped(&self, mut key: [i32; 4], step: usize) -> [i32; 4] {
        let step = &self.map.steps[step];
        key[step.attribute] ^= 1 << (step.place % 16);
        key
    }

    fn split_bit(&self, key: [i32; 4], step: usize) -> bool {
        let step = &self.map.steps[step];
        key[step.attribute] >> (step.place % 16) & 1 == 1
    }
}
