//! Packed records of three attributes: their four values in eight bytes, then the payload.

pub const ATTRIBUTES: usize = 3;

pub type Record = [u8; 12];

/// The key's values.
pub fn key(record: &Record) -> [i32; 4] {
    [0, 1, 2, 3].map(|j| u16::from_le_bytes([record[2 * j], record[2 * j + 1]]).into())
}

pub fn payload(record: &Record) -> u32 {
    u32::from_le_bytes(record[8..].try_into().expect("four bytes"))
}

/// The first eight bytes.
pub fn packed(record: &Record) -> u64 {
    u64::from_le_bytes(record[..8].try_into().expect("eight bytes"))
}

/// Values, none of which is below 0, as a record packs them.
pub fn pack(values: [i32; 4]) -> u64 {
    (0..4).fold(0, |packed, j| packed | u64::from(values[j] as u32) << (16 * j))
}

/// An interval of each attribute's values, both ends included, or none.
pub type Intervals = [Option<(i32, i32)>; 4];

/// Intervals of packed values: their low and their high ends, of attributes 0 and 2 and of 1 and 3, each in 32 bits.
#[derive(Clone, Copy)]
pub struct Lanes {
    low: [u64; 2],
    high: [u64; 2],
}

/// The bits of two values of 32 bits that are above the lower 16.
const ABOVE: u64 = 0x0001_0000_0001_0000;

impl Lanes {
    /// Those of a range; any value is inside a free attribute's.
    pub fn new(range: Intervals) -> Lanes {
        let ends = range.map(|ends| ends.unwrap_or((0, 0xffff)));
        let high = halves(pack(ends.map(|(_, high)| high))).map(|high| high | ABOVE);
        Lanes { low: halves(pack(ends.map(|(low, _)| low))), high }
    }

    /// Whether all values of a packed key are inside: no difference to an end takes the bit above.
    #[inline]
    pub fn hold(&self, packed: u64) -> bool {
        let [a, b] = halves(packed);
        let above = (self.high[0] - a)
            & (self.high[1] - b)
            & ((a | ABOVE) - self.low[0])
            & ((b | ABOVE) - self.low[1]);
        above & ABOVE == ABOVE
    }
}

/// Values 0 and 2, and values 1 and 3, in 32 bits each.
#[inline]
fn halves(packed: u64) -> [u64; 2] {
    const LOWER: u64 = ABOVE - (ABOVE >> 16);
    [packed & LOWER, packed >> 16 & LOWER]
}
