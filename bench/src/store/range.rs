//! The range: a walk over the regions whose values meet its intervals, that writes as it goes.
use super::page::key_of;
use super::{depth_of, page_of, Store};
use crate::packed::{Intervals, Lanes};

/// What a walk wants, the whole of a free attribute's values too, and what it has found.
struct Walk<'a> {
    ends: [(i32, i32); 4],
    lanes: Lanes,
    out: &'a mut [[u8; 12]],
    total: usize,
    reads: usize,
}

impl Store {
    /// Writes the records inside a range into the output while whole ones fit; written, total and reads. Refused with
    /// 8, 3 or 10.
    #[inline(never)]
    pub fn range(&self, range: Intervals, out: &mut [u8]) -> Result<(usize, usize, usize), u32> {
        if range[self.shape.attributes as usize..].iter().any(Option::is_some) {
            return Err(8);
        }
        let ends = range.map(|ends| ends.unwrap_or((0, 0)));
        if self.map.pack(ends.map(|(low, _)| low)).is_none()
            || self.map.pack(ends.map(|(_, high)| high)).is_none()
        {
            return Err(3);
        }
        if ends.iter().any(|(low, high)| low > high) {
            return Err(10);
        }
        let ends = range.map(|ends| ends.unwrap_or((0, 0xffff)));
        let out = out.as_chunks_mut().0;
        let mut walk = Walk { ends, lanes: Lanes::new(range), out, total: 0, reads: 0 };
        self.walk_met(&mut walk, 0, [0; 4], [0; 4], self.dir[0]);
        Ok((walk.total.min(walk.out.len()), walk.total, walk.reads))
    }

    /// Walks the region of depth x with this index vector and these least values, which meets the range, and whose
    /// first cell holds the word.
    fn walk_met(&self, walk: &mut Walk, x: usize, index: [u32; 4], least: [i32; 4], word: u32) {
        if depth_of(word) == x {
            if let Some(g) = page_of(word) {
                self.select_inside(walk, g);
            }
            return;
        }
        let step = &self.map.steps[x];
        let (low, high) = walk.ends[step.attribute];
        let middle = least[step.attribute] + (1 << (step.place % 16));
        if low < middle {
            self.walk_met(walk, x + 1, index, least, word);
        }
        if middle <= high {
            let (mut upper, mut least) = (index, least);
            upper[step.attribute] |= 1 << step.bit;
            least[step.attribute] = middle;
            self.walk_met(walk, x + 1, upper, least, self.dir[step.address(upper)]);
        }
    }

    /// Writes the records of page g that are inside.
    fn select_inside(&self, walk: &mut Walk, g: usize) {
        walk.reads += 1;
        for record in self.page(g).records() {
            if walk.lanes.hold(key_of(record)) {
                if let Some(place) = walk.out.get_mut(walk.total) {
                    *place = *record;
                }
                walk.total += 1;
            }
        }
    }
}
