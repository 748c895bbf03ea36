//! The partial-match query: a walk over the regions that writes as it goes.
use super::page::key_of;
use super::{depth_of, page_of, Store};

/// What a walk wants and what it has found.
struct Walk<'a> {
    query: [Option<i32>; 4],
    mask: u64,
    pattern: u64,
    out: &'a mut [[u8; 12]],
    total: usize,
    reads: usize,
}

impl Store {
    /// Writes the matching records into the output while whole ones fit; written, total and reads. Refused with 8 or 3.
    #[inline(never)]
    pub fn query(&self, query: [Option<i32>; 4], out: &mut [u8]) -> Result<(usize, usize, usize), u32> {
        if query[self.shape.attributes as usize..].iter().any(Option::is_some) {
            return Err(8);
        }
        let pattern = self.map.pack(query.map(|wanted| wanted.unwrap_or(0))).ok_or(3u32)?;
        let mask = (0..4).filter(|&j| query[j].is_some()).fold(0, |mask, j| mask | 0xffff << (16 * j));
        let out = out.as_chunks_mut().0;
        let mut walk = Walk { query, mask, pattern, out, total: 0, reads: 0 };
        self.walk(&mut walk, 0, [0; 4], self.dir[0]);
        Ok((walk.total.min(walk.out.len()), walk.total, walk.reads))
    }

    /// Walks the region of depth x with this index vector, whose first cell holds the word.
    fn walk(&self, walk: &mut Walk, x: usize, index: [u32; 4], word: u32) {
        if depth_of(word) == x {
            if let Some(g) = page_of(word) {
                self.select(walk, g);
            }
            return;
        }
        let step = &self.map.steps[x];
        let wanted = walk.query[step.attribute].map(|_| walk.pattern >> step.place & 1 == 1);
        if wanted != Some(true) {
            self.walk(walk, x + 1, index, word);
        }
        if wanted != Some(false) {
            let mut upper = index;
            upper[step.attribute] |= 1 << step.bit;
            self.walk(walk, x + 1, upper, self.dir[step.address(upper)]);
        }
    }

    /// Writes the matching records of page g.
    fn select(&self, walk: &mut Walk, g: usize) {
        walk.reads += 1;
        for record in self.page(g).records() {
            if key_of(record) & walk.mask == walk.pattern {
                if let Some(place) = walk.out.get_mut(walk.total) {
                    *place = *record;
                }
                walk.total += 1;
            }
        }
    }
}
