//! Split steps, cells and addresses, by tables that the widths fix. A packed key has value j in bits 16j to 16j + 15.
use mdeh_tests::reference::steps;

/// One split step: its attribute and bit, that bit's place in a packed key, and the shifts of the four indices in the
/// address of a cell that the step appends.
#[derive(Clone, Copy)]
pub struct Step {
    pub attribute: usize,
    pub bit: u32,
    pub place: u32,
    shifts: [u32; 4],
}

#[derive(Clone)]
pub struct Map {
    widths: [u32; 4],
    pub steps: Vec<Step>,
    /// how deep each attribute is after so many steps
    depths: Vec<[u32; 4]>,
    /// the step of bit k of attribute j
    numbers: [[u8; 16]; 4],
}

impl Map {
    pub fn new(used: &[u32]) -> Map {
        let mut widths = [0; 4];
        widths[..used.len()].copy_from_slice(used);
        let mut map = Map { widths, steps: vec![], depths: vec![[0; 4]], numbers: [[0; 16]; 4] };
        for (t, (k, z)) in steps(used).into_iter().enumerate() {
            let mut depths = map.depths[t];
            let past = |j: usize| (j + 1..4).filter(|&r| r != z).map(|r| depths[r]).sum();
            let mut shifts = [0, 1, 2, 3].map(past);
            shifts[z] = (0..4).filter(|&r| r != z).map(|r| depths[r]).sum();
            let place = 16 * z as u32 + used[z] - 1 - k;
            map.steps.push(Step { attribute: z, bit: k, place, shifts });
            map.numbers[z][k as usize] = t as u8;
            depths[z] += 1;
            map.depths.push(depths);
        }
        map
    }

    /// A key's four values in one word, if they are within their bounds; one below 0 is past every width.
    #[inline]
    pub fn pack(&self, key: [i32; 4]) -> Option<u64> {
        let fits = (0..4).all(|j| key[j] as u32 >> self.widths[j] == 0);
        fits.then(|| (0..4).fold(0, |packed, j| packed | u64::from(key[j] as u32) << (16 * j)))
    }

    /// The bits of a packed key that may be set.
    pub fn value_bits(&self) -> u64 {
        (0..4).fold(0, |bits, j| bits | ((1u64 << self.widths[j]) - 1) << (16 * j))
    }

    /// The index vector of a key's first t split bits.
    #[inline]
    pub fn cell(&self, key: [i32; 4], t: usize) -> [u32; 4] {
        let depths = self.depths[t];
        [0, 1, 2, 3].map(|j| {
            let reversed = ((key[j] as u32) << (32 - self.widths[j]).min(31)).reverse_bits();
            reversed & ((1 << depths[j]) - 1)
        })
    }

    /// The address of an index vector.
    #[inline]
    pub fn address(&self, index: [u32; 4]) -> usize {
        let step = |j: usize| index[j].checked_ilog2().map(|k| self.numbers[j][k as usize]);
        match (0..4).filter_map(step).max() {
            None => 0,
            Some(latest) => self.steps[latest as usize].address(index),
        }
    }

    /// The first split step in which two packed keys differ.
    #[inline]
    pub fn first_difference(&self, a: u64, b: u64) -> Option<usize> {
        let differing = |j: usize| {
            let highest = ((a ^ b) >> (16 * j) & 0xffff).checked_ilog2()?;
            Some(self.numbers[j][(self.widths[j] - 1 - highest) as usize] as usize)
        };
        (0..4).filter_map(differing).min()
    }

    /// Whether a packed key comes before another in split order.
    #[inline]
    pub fn before(&self, a: u64, b: u64) -> bool {
        self.first_difference(a, b).is_some_and(|step| b >> self.steps[step].place & 1 == 1)
    }
}

impl Step {
    /// The address of an index vector whose latest step this is.
    #[inline]
    pub fn address(&self, index: [u32; 4]) -> usize {
        (0..4).fold(0, |address, j| address + ((index[j] as usize) << self.shifts[j]))
    }
}
