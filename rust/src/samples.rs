//! Random keys and pages, valid ones and damaged ones.
use crate::pages::{packed, split_bits, Page, Record};
use crate::random::Random;
use std::collections::BTreeMap;

/// What a page is like. The first n records are those that a step is told of.
#[derive(Clone, Copy, Debug, PartialEq, Eq)]
pub enum Kind {
    /// n records in split order, no key twice, and count n.
    Valid,
    /// The same with as many records as the page has room for, or as there are keys.
    Full,
    /// Records in any order.
    Unsorted,
    /// Few keys, each several times, in split order.
    Repeated,
    /// A count above b.
    CountAboveCapacity,
    /// Random bytes: values past their widths, unused values other than 0, any count.
    RandomBytes,
}

/// Every kind.
pub const KINDS: [Kind; 6] =
    [Kind::Valid, Kind::Full, Kind::Unsorted, Kind::Repeated, Kind::CountAboveCapacity, Kind::RandomBytes];

impl Kind {
    /// Whether the first n records are in split order, and no key is among them twice.
    pub fn is_sorted(self) -> bool {
        matches!(self, Kind::Valid | Kind::Full | Kind::CountAboveCapacity)
    }
}

/// Random bytes.
pub fn random_bytes(random: &mut Random, count: usize) -> Vec<u8> {
    (0..count).map(|_| random.number() as u8).collect()
}

/// Random values below 2^w_j, 0 for an unused attribute.
pub fn random_values(random: &mut Random, widths: &[u32]) -> [u16; 4] {
    let mut values = [0; 4];
    for (j, &width) in widths.iter().enumerate() {
        values[j] = random.between(0, (1 << width) - 1) as u16;
    }
    values
}

/// A random record of any bytes.
pub fn random_record(random: &mut Random) -> Record {
    let values = [0; 4].map(|_| random.number() as u16);
    Record { values, payload: random.number() as u32 }
}

/// A random page of capacity b, and the number n of its records. Records past n are random.
pub fn random_page(random: &mut Random, widths: &[u32], b: usize, kind: Kind) -> (Page, usize) {
    let keys = 1 << widths.iter().sum::<u32>().min(16);
    let n = match kind {
        Kind::Full => b.min(keys),
        _ => random.between(0, b.min(keys) as u64) as usize,
    };
    let mut records: Vec<Record> = (0..b).map(|_| random_record(random)).collect();
    let few = match kind {
        Kind::Repeated => n.div_ceil(3),
        _ => n,
    };
    let chosen = distinct_keys(random, widths, few);
    match kind {
        Kind::Valid | Kind::Full | Kind::CountAboveCapacity => {
            for (record, &values) in records.iter_mut().zip(&chosen) {
                record.values = values;
            }
        }
        Kind::Unsorted => {
            records[..n].iter_mut().for_each(|record| record.values = random_values(random, widths))
        }
        Kind::Repeated => {
            for (i, record) in records[..n].iter_mut().enumerate() {
                record.values = chosen[i / 3];
            }
        }
        Kind::RandomBytes => {}
    }
    let count = match kind {
        Kind::CountAboveCapacity => random.between(b as u64 + 1, u16::MAX.into()) as u16,
        Kind::RandomBytes => random.number() as u16,
        _ => n as u16,
    };
    (Page { count, records }, n)
}

/// So many different random keys in split order.
pub fn distinct_keys(random: &mut Random, widths: &[u32], count: usize) -> Vec<[u16; 4]> {
    let mut keys = BTreeMap::new();
    while keys.len() < count {
        let values = random_values(random, widths);
        keys.insert(split_bits(widths, values), values);
    }
    keys.into_values().collect()
}

/// A packed key to look for: in half of the cases that of one of the records, else a random one, some of them
/// with bits past the widths.
pub fn wanted_key(random: &mut Random, widths: &[u32], records: &[Record]) -> u64 {
    match random.between(0, 5) {
        0..=2 if !records.is_empty() => {
            packed(records[random.between(0, records.len() as u64 - 1) as usize].values)
        }
        5 => random.number(),
        _ => packed(random_values(random, widths)),
    }
}
