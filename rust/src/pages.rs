//! Pages from document 01's words ("Lent memory"), as lists of records; keys by their strings of split bits.
//! Nothing here is taken from the library.
use crate::reference::steps;

/// "four 16-bit values .. and a 32-bit payload"
#[derive(Clone, Copy, Debug, PartialEq, Eq)]
pub struct Record {
    pub values: [u16; 4],
    pub payload: u32,
}

/// A page: its count, and every record that its bytes have room for, also those past the count.
#[derive(Clone, Debug, PartialEq, Eq)]
pub struct Page {
    pub count: u16,
    pub records: Vec<Record>,
}

impl Record {
    /// The 12 bytes of a record, little-endian.
    pub fn bytes(&self) -> Vec<u8> {
        let mut bytes = Vec::new();
        for value in self.values {
            bytes.extend(value.to_le_bytes());
        }
        bytes.extend(self.payload.to_le_bytes());
        bytes
    }

    /// The record of 12 bytes.
    pub fn read(bytes: &[u8]) -> Record {
        let value = |j: usize| u16::from_le_bytes([bytes[2 * j], bytes[2 * j + 1]]);
        let payload = u32::from_le_bytes([bytes[8], bytes[9], bytes[10], bytes[11]]);
        Record { values: [value(0), value(1), value(2), value(3)], payload }
    }

    /// "a record matches if it has the query's value in every given attribute"
    pub fn matches(&self, query: [Option<u32>; 4]) -> bool {
        (0..4).all(|j| query[j].is_none_or(|value| value == u32::from(self.values[j])))
    }
}

/// A key as the steps take it: its values in one number of 64 bits, that of attribute 0 lowest.
pub fn packed(values: [u16; 4]) -> u64 {
    (0..4).map(|j| u64::from(values[j]) << (16 * j)).sum()
}

/// The values of such a number.
pub fn unpacked(key: u64) -> [u16; 4] {
    [0, 16, 32, 48].map(|low| (key >> low) as u16)
}

/// "The split bits of a key are its bits in this order"; "Bit 0 of an encoding is its most significant of w_j
/// bits".
pub fn split_bits(widths: &[u32], values: [u16; 4]) -> Vec<bool> {
    steps(widths).iter().map(|&(k, j)| (values[j] >> (widths[j] - 1 - k)) & 1 == 1).collect()
}

impl Page {
    /// The bytes of a page: "count (2), then records".
    pub fn bytes(&self) -> Vec<u8> {
        let mut bytes = self.count.to_le_bytes().to_vec();
        for record in &self.records {
            bytes.extend(record.bytes());
        }
        bytes
    }

    /// The page of 2 + 12b bytes.
    pub fn read(bytes: &[u8]) -> Page {
        let count = u16::from_le_bytes([bytes[0], bytes[1]]);
        Page { count, records: bytes[2..].chunks_exact(12).map(Record::read).collect() }
    }

    /// Inserts a record at place i of the first n; what stood behind them stays, but for the one record that
    /// gives way.
    pub fn insert(&mut self, i: usize, n: usize, record: Record) {
        let mut first = self.records[..n].to_vec();
        first.insert(i, record);
        self.records[..n + 1].copy_from_slice(&first);
        self.count = n as u16 + 1;
    }

    /// Removes record i of the first n; what stood past the others stays.
    pub fn remove(&mut self, i: usize, n: usize) {
        let mut first = self.records[..n].to_vec();
        first.remove(i);
        self.records[..n - 1].copy_from_slice(&first);
        self.count = n as u16 - 1;
    }
}

/// Carries the records from m to n of page p behind the j records of page q; page p keeps its first m.
pub fn carry(pages: &mut [Page], p: usize, m: usize, n: usize, q: usize, j: usize) {
    let carried = pages[p].records[m..n].to_vec();
    pages[p].count = m as u16;
    pages[q].records[j..j + carried.len()].copy_from_slice(&carried);
    pages[q].count = (j + carried.len()) as u16;
}

/// "A page is free exactly if its count is 0": the first free one; the number of pages where none is.
pub fn first_free(pages: &[Page]) -> usize {
    pages.iter().position(|page| page.count == 0).unwrap_or(pages.len())
}

/// "It writes 12-byte records into the output while whole ones fit, other output bytes untouched": the records
/// that match, as the output's records from `total` on. Returns how many match, with the `total` before.
pub fn put_matches(records: &[Record], query: [Option<u32>; 4], out: &mut [u8], total: usize) -> usize {
    let matching: Vec<&Record> = records.iter().filter(|record| record.matches(query)).collect();
    for (place, record) in (total..).zip(&matching) {
        if let Some(bytes) = out.get_mut(12 * place..12 * place + 12) {
            bytes.copy_from_slice(&record.bytes());
        }
    }
    total + matching.len()
}
