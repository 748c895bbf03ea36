//! The plain model for long runs: a list in split order, with a key's split bits as one number. The leaves are counted
//! from the whole list for every answer.
use super::image::{SIGNS, STATE, TALLY};
use super::leaves::Record;
use super::model::Model;
use super::range::{range_refused, Intervals};
use super::refusal::{absent, insert_refused, key_refused, query_refused, refusal};
use crate::host::Refused;

/// The model's shape, P and L; its own list of records is not used.
pub struct Ordered {
    pub model: Model,
    /// in split order
    records: Vec<Entry>,
}

/// The split bits, the first one highest, with key and payload.
type Entry = (u64, [i32; 4], u32);

/// The leaves of a set: how many at each depth, and how many that are not empty.
#[derive(Default)]
pub struct Extent {
    pub tally: [u32; 13],
    pub pages: usize,
}

impl Ordered {
    /// The model without records.
    pub fn new(model: Model) -> Ordered {
        Ordered { model, records: vec![] }
    }

    pub fn len(&self) -> usize {
        self.records.len()
    }

    pub fn is_empty(&self) -> bool {
        self.records.is_empty()
    }

    /// The key at a place of the list.
    pub fn key(&self, i: usize) -> [i32; 4] {
        self.records[i].1
    }

    /// A key's split bits, the first one highest.
    pub fn code(&self, key: [i32; 4]) -> u64 {
        let bits = self.model.split_bits(key);
        bits.iter().enumerate().fold(0, |code, (t, &bit)| code | u64::from(bit) << (63 - t))
    }

    /// The key of some split bits; those past the last are ignored.
    pub fn key_of(&self, code: u64) -> [i32; 4] {
        let total = self.model.widths().iter().sum::<u32>();
        let bits: Vec<bool> = (0..total).map(|t| code >> (63 - t) & 1 == 1).collect();
        self.model.key_of(&bits)
    }

    /// The leaves of the set.
    pub fn extent(&self) -> Extent {
        let mut extent = Extent::default();
        self.add_leaves(&self.records, 0, &mut extent);
        extent
    }

    /// How deep a key lies: regions are divided by their next bit while more than b records begin with them.
    pub fn depth(&self, key: [i32; 4]) -> u32 {
        let code = self.code(key);
        let mut records = &self.records[..];
        let mut x = 0;
        while records.len() > self.model.shape.capacity as usize {
            let (zeros, ones) = halves(records, x);
            records = if code >> (63 - x) & 1 == 0 { zeros } else { ones };
            x += 1;
        }
        x as u32
    }

    /// The state's words.
    pub fn state(&self) -> [u32; STATE] {
        let Extent { tally, .. } = self.extent();
        let depth = tally.iter().rposition(|&leaves| leaves > 0).expect("there is always a leaf");
        let shape = self.model.shape;
        let mut state = [0; STATE];
        state[0] = shape.attributes;
        state[1..5].copy_from_slice(&shape.widths);
        let limits = [self.model.page_limit as u32, self.model.depth_limit as u32, depth as u32];
        state[5] = shape.capacity;
        state[6..9].copy_from_slice(&limits);
        state[TALLY..SIGNS].copy_from_slice(&tally);
        state[SIGNS] = shape.signs;
        state
    }

    /// Adds the leaves of a region of depth x with these records.
    fn add_leaves(&self, records: &[Entry], x: usize, extent: &mut Extent) {
        if records.len() <= self.model.shape.capacity as usize {
            // deeper leaves than the tally has come with a set that no store holds
            if let Some(leaves) = extent.tally.get_mut(x) {
                *leaves += 1;
            }
            extent.pages += usize::from(!records.is_empty());
            return;
        }
        let (zeros, ones) = halves(records, x);
        self.add_leaves(zeros, x + 1, extent);
        self.add_leaves(ones, x + 1, extent);
    }

    // ---- calls

    /// The depth of the key's leaf afterwards.
    pub fn insert(&mut self, key: [i32; 4], payload: u32) -> Result<u32, Refused> {
        if let Some(refused) = insert_refused(self.model.shape, key, payload) {
            return Err(refused);
        }
        let code = self.code(key);
        let Err(place) = self.find(code) else {
            return Err(refusal(4));
        };
        let first = |code: u64| code.checked_shr(64 - self.model.depth_limit as u32).unwrap_or(0);
        let sharing = self.records.iter().filter(|record| first(record.0) == first(code)).count();
        if sharing >= self.model.shape.capacity as usize {
            return Err(refusal(6));
        }
        self.records.insert(place, (code, key, payload));
        if self.extent().pages > self.model.page_limit {
            self.records.remove(place);
            return Err(refusal(7));
        }
        Ok(self.depth(key))
    }

    /// The depth of the key's leaf afterwards; with 5 of the present one.
    pub fn delete(&mut self, key: [i32; 4]) -> Result<u32, Refused> {
        if key_refused(self.model.shape, key) {
            return Err(refusal(3));
        }
        let place = self.find(self.code(key)).map_err(|_| absent(self.depth(key)))?;
        self.records.remove(place);
        Ok(self.depth(key))
    }

    /// The payload, 1 page read, and the depth of the key's leaf, which 5 carries too.
    pub fn lookup(&self, key: [i32; 4]) -> Result<(u32, u32, u32), Refused> {
        if key_refused(self.model.shape, key) {
            return Err(refusal(3));
        }
        let place = self.find(self.code(key)).map_err(|_| absent(self.depth(key)))?;
        Ok((self.records[place].2, 1, self.depth(key)))
    }

    /// Written, total and reads.
    pub fn query(&self, query: [Option<i32>; 4], out: &mut [u8]) -> Result<(u64, u64, u64), Refused> {
        if let Some(refused) = query_refused(self.model.shape, query) {
            return Err(refused);
        }
        let (written, total) = self.list(|record| record.matches(query), out);
        Ok((written, total, self.reads(query)))
    }

    /// Written, total and reads.
    pub fn range(&self, range: Intervals, out: &mut [u8]) -> Result<(u64, u64, u64), Refused> {
        if let Some(refused) = range_refused(self.model.shape, range) {
            return Err(refused);
        }
        let (written, total) = self.list(|record| record.lies_in(range), out);
        let [least, greatest] = [0, u64::MAX].map(|code| self.key_of(code));
        Ok((written, total, self.reads_met(&self.records, 0, least, greatest, range)))
    }

    /// Writes the wanted records while whole ones fit, and counts written and all of them.
    fn list(&self, wanted: impl Fn(&Record) -> bool, out: &mut [u8]) -> (u64, u64) {
        let mut total = 0;
        for &(_, key, payload) in &self.records {
            let record = Record { bits: vec![], key, payload };
            if wanted(&record) {
                if let Some(place) = out.get_mut(12 * total..12 * total + 12) {
                    place.copy_from_slice(&record.bytes());
                }
                total += 1;
            }
        }
        (total.min(out.len() / 12) as u64, total as u64)
    }

    /// The leaves that are not empty and agree with a query.
    fn reads(&self, query: [Option<i32>; 4]) -> u64 {
        let [least, greatest] = [0, u64::MAX].map(|code| self.key_of(code));
        let given = [0, 1, 2, 3].map(|j| if query[j].is_some() { greatest[j] } else { least[j] });
        let wanted = [0, 1, 2, 3].map(|j| query[j].unwrap_or(least[j]));
        self.reads_below(&self.records, 0, self.code(given), self.code(wanted))
    }

    /// The same below a region of depth x that agrees, with the bits that are given and what they are.
    fn reads_below(&self, records: &[Entry], x: usize, given: u64, wanted: u64) -> u64 {
        if records.len() <= self.model.shape.capacity as usize {
            return u64::from(!records.is_empty());
        }
        let bit = |code: u64| code >> (63 - x) & 1 == 1;
        let (zeros, ones) = records.split_at(records.partition_point(|record| !bit(record.0)));
        let side = |records, value| match bit(given) && bit(wanted) != value {
            true => 0,
            false => self.reads_below(records, x + 1, given, wanted),
        };
        side(zeros, false) + side(ones, true)
    }

    /// The leaves that are not empty and meet a range, below a region of depth x with these least and greatest values.
    fn reads_met(
        &self,
        records: &[Entry],
        x: usize,
        least: [i32; 4],
        greatest: [i32; 4],
        range: Intervals,
    ) -> u64 {
        if (0..4).any(|j| range[j].is_some_and(|(low, high)| greatest[j] < low || high < least[j])) {
            return 0;
        }
        if records.len() <= self.model.shape.capacity as usize {
            return u64::from(!records.is_empty());
        }
        let (zeros, ones) = halves(records, x);
        let (j, counts) = self.model.split_step(x);
        let (mut middle, mut next) = (greatest, least);
        middle[j] -= counts;
        next[j] += counts;
        self.reads_met(zeros, x + 1, least, middle, range)
            + self.reads_met(ones, x + 1, next, greatest, range)
    }

    /// Where some split bits are, or would be.
    fn find(&self, code: u64) -> Result<usize, usize> {
        self.records.binary_search_by_key(&code, |record| record.0)
    }
}

/// The records of a region of depth x, in split order, with 0 and with 1 in their next bit.
fn halves(records: &[Entry], x: usize) -> (&[Entry], &[Entry]) {
    records.split_at(records.partition_point(|record| record.0 >> (63 - x) & 1 == 0))
}
