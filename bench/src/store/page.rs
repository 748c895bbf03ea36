//! One page's bytes: a count of 16 bits, then records of 12 bytes, eight of them the packed key.

pub struct Page<B> {
    pub bytes: B,
}

impl Page<()> {
    /// The bytes of a page of so many records.
    pub fn size(capacity: usize) -> usize {
        2 + 12 * capacity
    }
}

impl<B: AsRef<[u8]>> Page<B> {
    #[inline]
    pub fn count(&self) -> usize {
        let bytes = self.bytes.as_ref();
        usize::from(u16::from_le_bytes([bytes[0], bytes[1]]))
    }

    /// The records' bytes.
    #[inline]
    pub fn records(&self) -> &[[u8; 12]] {
        let bytes = &self.bytes.as_ref()[2..2 + 12 * self.count()];
        bytes.as_chunks().0
    }

    #[inline]
    pub fn payload(&self, i: usize) -> u32 {
        u32::from_le_bytes(self.records()[i][8..].try_into().expect("four bytes"))
    }

    /// Where a packed key stands.
    #[inline]
    pub fn find(&self, key: u64) -> Option<usize> {
        self.records().iter().position(|record| key_of(record) == key)
    }
}

impl Page<&mut [u8]> {
    pub fn set_count(&mut self, count: usize) {
        self.bytes[..2].copy_from_slice(&(count as u16).to_le_bytes());
    }

    /// Puts a record at place i; those from there on move up.
    pub fn put(&mut self, i: usize, record: [u8; 12]) {
        let n = self.count();
        self.bytes.copy_within(2 + 12 * i..2 + 12 * n, 14 + 12 * i);
        self.bytes[2 + 12 * i..14 + 12 * i].copy_from_slice(&record);
        self.set_count(n + 1);
    }

    /// Takes the record at place i out; those after it move down.
    pub fn take(&mut self, i: usize) {
        let n = self.count();
        self.bytes.copy_within(14 + 12 * i..2 + 12 * n, 2 + 12 * i);
        self.set_count(n - 1);
    }

    /// Has these records and no other.
    pub fn fill(&mut self, records: &[[u8; 12]]) {
        self.bytes[2..2 + 12 * records.len()].copy_from_slice(records.as_flattened());
        self.set_count(records.len());
    }
}

/// A record's packed key.
#[inline]
pub fn key_of(record: &[u8; 12]) -> u64 {
    u64::from_le_bytes(record[..8].try_into().expect("eight bytes"))
}

/// A record's key.
#[inline]
pub fn key_in(record: &[u8; 12]) -> [i32; 4] {
    [0, 1, 2, 3].map(|j| u16::from_le_bytes([record[2 * j], record[2 * j + 1]]).into())
}

/// A record's bytes.
pub fn record_of(key: u64, payload: u32) -> [u8; 12] {
    let mut record = [0; 12];
    record[..8].copy_from_slice(&key.to_le_bytes());
    record[8..].copy_from_slice(&payload.to_le_bytes());
    record
}
