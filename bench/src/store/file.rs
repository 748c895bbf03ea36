//! Save and load.
use super::page::{key_in, key_of, Page};
use super::{depth_of, page_of, Store};
use mdeh_tests::host::Shape;

/// The bytes of the shape and of the trailer.
const END: usize = 24;

impl Store {
    /// Writes the file of the records, and returns how many bytes it has. Refused with 2.
    #[inline(never)]
    pub fn save(&self, out: &mut [u8]) -> Result<usize, u32> {
        let records: usize = (0..self.page_limit).map(|g| self.page(g).count()).sum();
        let size = 12 * records + END;
        let (mut place, end) = out.get_mut(..size).ok_or(2u32)?.split_at_mut(size - END);
        self.each_page(0, [0; 4], self.dir[0], &mut |page| {
            let bytes = page.records().as_flattened();
            let (own, rest) = std::mem::take(&mut place).split_at_mut(bytes.len());
            own.copy_from_slice(bytes);
            place = rest;
        });
        end.copy_from_slice(&self.end_of(records));
        Ok(size)
    }

    /// Hands on the pages below the region of depth x with this index vector, whose first cell holds the word, in split
    /// order.
    fn each_page(&self, x: usize, index: [u32; 4], word: u32, each: &mut impl FnMut(Page<&[u8]>)) {
        if depth_of(word) == x {
            if let Some(g) = page_of(word) {
                each(self.page(g));
            }
            return;
        }
        let step = &self.map.steps[x];
        self.each_page(x + 1, index, word, each);
        let mut upper = index;
        upper[step.attribute] |= 1 << step.bit;
        self.each_page(x + 1, upper, self.dir[step.address(upper)], each);
    }

    /// What stands behind so many records.
    fn end_of(&self, records: usize) -> [u8; END] {
        let Shape { attributes, widths, capacity, signs } = self.shape;
        let mut end = [0; END];
        end[..7].copy_from_slice(&[
            attributes as u8,
            widths[0] as u8,
            widths[1] as u8,
            widths[2] as u8,
            widths[3] as u8,
            capacity as u8,
            signs as u8,
        ]);
        end[8..12].copy_from_slice(b"MDEH");
        for (place, number) in end[12..].chunks_exact_mut(4).zip([END, 12 * records + END, records]) {
            place.copy_from_slice(&(number as u32).to_le_bytes());
        }
        end
    }

    /// Has the records of a file of its shape, and no other. Refused with 12, 1 for another shape, 13, 6 or 7; 6 and 7
    /// leave the records before that which met them.
    #[inline(never)]
    pub fn load(&mut self, file: &[u8]) -> Result<(), u32> {
        let records: &[[u8; 12]] = file.len().checked_sub(END).map_or(&[], |size| file[..size].as_chunks().0);
        let end = self.end_of(records.len());
        if file.len() != 12 * records.len() + END || file[file.len() - 16..] != end[8..] {
            return Err(12);
        }
        if file[12 * records.len()..][..8] != end[..8] {
            return Err(1);
        }
        let fits = |record| key_of(record) & !self.map.value_bits() == 0;
        let rises = |pair: &[[u8; 12]]| self.map.before(key_of(&pair[0]), key_of(&pair[1]));
        if !records.iter().all(fits) || !records.windows(2).all(rises) {
            return Err(13);
        }
        (0..self.page_limit).for_each(|g| self.page_mut(g).set_count(0));
        (self.dir[0], self.depth, self.tally, self.first_free) = (0, 0, [0; 13], 0);
        self.tally[0] = 1;
        records.iter().try_for_each(|&record| self.add(key_in(&record), key_of(&record), record).map(drop))
    }
}
