//! Queries and ranges answered by a scan of all records: of packed ones, and of columns.
use crate::packed::{key, pack, packed, payload, Intervals, Lanes, Record, ATTRIBUTES};
use std::array;
use std::collections::HashSet;

/// How many records of a column are compared at once.
const BLOCK: usize = 64;

/// One array for each attribute, in whole blocks with zeros past the records, and one of the payloads.
pub struct Columns {
    attributes: [Column; ATTRIBUTES],
    payloads: Vec<u32>,
}

struct Column {
    blocks: Vec<[u16; BLOCK]>,
    /// how many values there are
    distinct: usize,
}

impl Columns {
    pub fn new(records: &[Record]) -> Columns {
        let column = |j: usize| {
            let value = |i: usize| records.get(i).map_or(0, |record| key(record)[j] as u16);
            let block = |start: usize| array::from_fn(|i| value(start + i));
            let blocks = (0..records.len()).step_by(BLOCK).map(block).collect();
            let distinct = (0..records.len()).map(value).collect::<HashSet<u16>>().len();
            Column { blocks, distinct }
        };
        Columns { attributes: [0, 1, 2].map(column), payloads: records.iter().map(payload).collect() }
    }

    /// Writes the matching records into the output while whole ones fit; how many match. Of the attributes that are
    /// given, the array of the one with the most values is scanned, and the others are compared where it matches.
    #[inline(never)]
    pub fn query(&self, query: [Option<i32>; 4], out: &mut [u8]) -> u64 {
        let out = out.as_chunks_mut().0;
        let wanted = |j: usize| query[j].map(|value| (&self.attributes[j], value as u16));
        let given: [Option<(&Column, u16)>; ATTRIBUTES] = [0, 1, 2].map(wanted);
        let mut total = 0;
        let mut visit = |i: usize| {
            if given.iter().flatten().all(|&(column, value)| column.value(i) == value) {
                self.write(i, total, out);
                total += 1;
            }
        };
        match given.iter().flatten().max_by_key(|(column, _)| column.distinct) {
            Some(&(column, value)) => column.scan(|own| own == value, self.payloads.len(), visit),
            None => (0..self.payloads.len()).for_each(&mut visit),
        }
        total as u64
    }

    /// The same of the records inside a range; the array of the attribute with the smallest part of its values inside
    /// is scanned.
    #[inline(never)]
    pub fn range(&self, range: Intervals, out: &mut [u8]) -> u64 {
        let out = out.as_chunks_mut().0;
        let ends =
            |j: usize| range[j].map(|(low, high)| (&self.attributes[j], low as u16, (high - low) as u16));
        let given: [Option<(&Column, u16, u16)>; ATTRIBUTES] = [0, 1, 2].map(ends);
        let mut total = 0;
        let mut visit = |i: usize| {
            if given.iter().flatten().all(|&(column, low, more)| column.value(i).wrapping_sub(low) <= more) {
                self.write(i, total, out);
                total += 1;
            }
        };
        let rarity =
            |&&(column, _, more): &&(&Column, u16, u16)| (column.distinct << 16) / (more as usize + 1);
        match given.iter().flatten().max_by_key(rarity) {
            Some(&(column, low, more)) => {
                column.scan(|own| own.wrapping_sub(low) <= more, self.payloads.len(), visit)
            }
            None => (0..self.payloads.len()).for_each(&mut visit),
        }
        total as u64
    }

    /// Writes record i to place n of the output, if it is there.
    #[inline]
    fn write(&self, i: usize, n: usize, out: &mut [Record]) {
        if let Some(place) = out.get_mut(n) {
            let [a0, a1, a2] = self.attributes.each_ref().map(|column| column.value(i).into());
            place[..8].copy_from_slice(&pack([a0, a1, a2, 0]).to_le_bytes());
            place[8..].copy_from_slice(&self.payloads[i].to_le_bytes());
        }
    }
}

impl Column {
    #[inline]
    fn value(&self, i: usize) -> u16 {
        self.blocks[i / BLOCK][i % BLOCK]
    }

    /// Visits the places below `count` that have a wanted value. Blocks without one, which most are for a single value,
    /// are passed over.
    #[inline]
    fn scan(&self, wanted: impl Fn(u16) -> bool, count: usize, mut visit: impl FnMut(usize)) {
        for (n, block) in self.blocks.iter().enumerate() {
            if block.iter().map(|&own| u16::from(wanted(own))).sum::<u16>() == 0 {
                continue;
            }
            let same = block.map(|own| u8::from(wanted(own)));
            for (k, eight) in same.as_chunks().0.iter().enumerate() {
                let mut bits = u64::from_le_bytes(*eight);
                while bits != 0 {
                    let i = BLOCK * n + 8 * k + bits.trailing_zeros() as usize / 8;
                    if i < count {
                        visit(i);
                    }
                    bits &= bits - 1;
                }
            }
        }
    }
}

/// Writes the matching records, of packed ones, into the output while whole ones fit; how many match.
#[inline(never)]
pub fn packed_query(records: &[Record], query: [Option<i32>; 4], out: &mut [u8]) -> u64 {
    let pattern = pack(query.map(|wanted| wanted.unwrap_or(0)));
    let mask = pack(query.map(|wanted| if wanted.is_some() { 0xffff } else { 0 }));
    packed_copy(records, |record| packed(record) & mask == pattern, out)
}

/// The same of the records inside a range. Where one attribute alone is given, only its values are compared.
#[inline(never)]
pub fn packed_range(records: &[Record], range: Intervals, out: &mut [u8]) -> u64 {
    let mut given = range.into_iter().enumerate().filter_map(|(j, ends)| ends.map(|ends| (j, ends)));
    match (given.next(), given.next()) {
        (Some((j, (low, high))), None) => {
            let (low, more) = (low as u16, (high - low) as u16);
            let inside = |record: &Record| ((packed(record) >> (16 * j)) as u16).wrapping_sub(low) <= more;
            packed_copy(records, inside, out)
        }
        _ => {
            let lanes = Lanes::new(range);
            packed_copy(records, |record| lanes.hold(packed(record)), out)
        }
    }
}

/// Writes the wanted records into `out` while whole ones fit. Returns how many are wanted.
#[inline]
fn packed_copy(records: &[Record], wanted: impl Fn(&Record) -> bool, out: &mut [u8]) -> u64 {
    let out = out.as_chunks_mut().0;
    let mut total = 0;
    for record in records {
        if wanted(record) {
            if let Some(place) = out.get_mut(total) {
                *place = *record;
            }
            total += 1;
        }
    }
    total as u64
}
