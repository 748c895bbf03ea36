//! What a store's memory shows: its cells by address, its leaves in split order, its pages with their records (document
//! 01, "Lent memory").
use crate::ask::Asked;
use crate::attribute::{Attribute, Spec};
use crate::fullest::Fullest;
use crate::owned::Owned;
use mdeh::{Record, Records, Shape};

/// A sound store, taken apart.
pub struct Picture {
    pub shape: Shape,
    /// the d attributes
    pub attributes: Vec<Attribute>,
    /// P, L and T
    pub page_limit: usize,
    pub depth_limit: usize,
    pub depth: usize,
    /// leaves at depths 0 to T, as the state counts them
    pub tally: Vec<usize>,
    /// the split steps below L: bit and attribute
    pub steps: Vec<(usize, usize)>,
    /// by address
    pub cells: Vec<Cell>,
    /// in split order
    pub leaves: Vec<Leaf>,
    pub fullest: Fullest,
    pub asked: Option<Asked>,
}

/// The memory of a store.
#[derive(Clone, Copy)]
struct Memory<'m> {
    shape: Shape,
    directory: &'m [u32],
    pages: &'m [u8],
}

/// A cell of the directory.
pub struct Cell {
    pub bits: Bits,
    /// an index for each attribute
    pub index: Vec<u64>,
    /// the place in `leaves` of the leaf that the cell's split bits begin with
    pub leaf: usize,
}

/// A leaf.
pub struct Leaf {
    pub bits: Bits,
    pub page: Option<usize>,
    /// the records of its page
    pub records: Vec<Record>,
}

/// A string of so many split bits, the first of them the most significant of `value`.
#[derive(Clone, Copy, Debug, Default, PartialEq, Eq)]
pub struct Bits {
    pub value: usize,
    pub count: usize,
}

impl Picture {
    /// What a sound store shows.
    pub fn of(store: &Owned) -> Picture {
        let (shape, directory, pages) = (store.shape(), store.directory(), store.pages());
        let attributes = shape.attributes;
        let [page_limit, depth_limit, depth] = [6, 7, 8].map(|word| store.state()[word]);
        let (depth, depth_limit) = (depth as usize, depth_limit as usize);
        let steps = steps(&shape.widths[..attributes as usize], depth_limit);
        let cell = |address| cell(shape, &steps[..depth], address);
        let mut cells: Vec<Cell> = (0..1 << depth).map(cell).collect();
        let leaves = leaves(Memory { shape, directory, pages }, &mut cells, depth);
        let mut picture = Picture {
            shape,
            attributes: (0..attributes as usize).map(|j| Attribute::plain(shape, j)).collect(),
            page_limit: page_limit as usize,
            depth_limit,
            depth,
            tally: store.state()[9..=9 + depth].iter().map(|&count| count as usize).collect(),
            steps,
            cells,
            leaves,
            fullest: Fullest::default(),
            asked: None,
        };
        picture.fullest = Fullest::of(&picture);
        picture
    }

    /// Names the attributes, each in its turn, if there is a name. Otherwise says why the names and values do not fit.
    pub fn name(&mut self, specs: &[Spec]) -> Result<(), String> {
        if specs.is_empty() {
            return Ok(());
        }
        if specs.len() != self.attributes.len() {
            return Err(format!("the store has {} attributes, not {}", self.attributes.len(), specs.len()));
        }
        let attributes = specs.iter().enumerate().map(|(j, spec)| spec.attribute(self.shape, j));
        self.attributes = attributes.collect::<Result<_, _>>()?;
        self.records().try_for_each(|record| self.has_values(record))
    }

    /// Whether each encoding of a record is that of a value; otherwise says which is not.
    fn has_values(&self, record: &Record) -> Result<(), String> {
        let encodings = self.attributes.iter().zip(self.encodings(record));
        for ((attribute, encoding), value) in encodings.zip(record.values) {
            if attribute.values((encoding, encoding)).is_none() {
                let ((from, to), name) = (attribute.ends(), &attribute.name);
                return Err(format!(
                    "{name}: the store holds {value}, which no value from {from} to {to} has"
                ));
            }
        }
        Ok(())
    }

    /// The widths of the d attributes.
    pub fn widths(&self) -> &[u32] {
        &self.shape.widths[..self.attributes.len()]
    }

    /// b
    pub fn capacity(&self) -> usize {
        self.shape.capacity as usize
    }

    /// The records in split order.
    pub fn records(&self) -> impl Iterator<Item = &Record> {
        self.leaves.iter().flat_map(|leaf| &leaf.records)
    }

    /// The encodings of a record's values: their distances from the least ones.
    pub fn encodings(&self, record: &Record) -> impl Iterator<Item = u32> {
        let (shape, values) = (self.shape, record.values);
        (0..self.attributes.len()).map(move |j| (values[j] - shape.values(j).start()) as u32)
    }

    /// Whether a record's encodings are in the intervals, one for each attribute, both ends included.
    pub fn matches(&self, record: &Record, wanted: &[(u32, u32)]) -> bool {
        self.encodings(record).zip(wanted).all(|(encoding, &(low, high))| (low..=high).contains(&encoding))
    }

    /// The first L split bits of a record.
    pub fn split_bits(&self, record: &Record) -> Bits {
        let (encodings, widths): (Vec<u32>, _) = (self.encodings(record).collect(), self.widths());
        let bit = |(k, j): (usize, usize)| encodings[j] as usize >> (widths[j] as usize - 1 - k) & 1;
        self.steps.iter().fold(Bits::default(), |bits, &step| bits.longer(bit(step)))
    }

    /// The keys that begin with a string: for each attribute the least and the greatest encoding.
    pub fn region(&self, bits: Bits) -> Vec<(u32, u32)> {
        let mut region: Vec<(u32, u32)> =
            self.attributes.iter().map(|attribute| (0, attribute.last())).collect();
        for (step, &(_, j)) in self.steps.iter().enumerate().take(bits.count) {
            let (low, high) = region[j];
            let middle = low + (high - low).div_ceil(2);
            region[j] = if bits.bit(step) == 0 { (low, middle - 1) } else { (middle, high) };
        }
        region
    }

    /// How many records match in the leaf at a place, if it is read.
    pub fn read(&self, place: usize) -> Option<usize> {
        self.asked.as_ref().and_then(|asked| asked.read[place])
    }

    /// The place in `leaves` of each page's leaf, by page number, up to the last page that has one.
    pub fn pages(&self) -> Vec<Option<usize>> {
        let mut pages = Vec::new();
        for (place, leaf) in self.leaves.iter().enumerate() {
            if let Some(page) = leaf.page {
                pages.resize(pages.len().max(page + 1), None);
                pages[page] = Some(place);
            }
        }
        pages
    }

    /// The number of pages that have a leaf.
    pub fn pages_used(&self) -> usize {
        self.leaves.iter().filter(|leaf| leaf.page.is_some()).count()
    }
}

impl Leaf {
    /// The number of its split bits.
    pub fn depth(&self) -> usize {
        self.bits.count
    }
}

impl Bits {
    /// Where the keys that begin with this string lie among all keys in split order, from 0 to 1: the start, and the
    /// part that they take.
    pub fn span(self) -> (f64, f64) {
        let part = 1.0 / (1 << self.count) as f64;
        (self.value as f64 * part, part)
    }

    /// The string with one more bit.
    pub fn longer(self, bit: usize) -> Bits {
        Bits { value: self.value << 1 | bit, count: self.count + 1 }
    }

    /// The first bits, as many as there are up to `count`.
    pub fn first(self, count: usize) -> Bits {
        let rest = self.count.saturating_sub(count);
        Bits { value: self.value >> rest, count: self.count - rest }
    }

    /// The bit of a split step, which is below `count`.
    pub fn bit(self, step: usize) -> usize {
        self.value >> (self.count - 1 - step) & 1
    }
}

impl std::fmt::Display for Bits {
    /// The bits in split order; `-` for none.
    fn fmt(&self, f: &mut std::fmt::Formatter<'_>) -> std::fmt::Result {
        let text = match self.count {
            0 => "-".to_owned(),
            count => format!("{:0count$b}", self.value),
        };
        f.pad(&text)
    }
}

/// "Split steps are the pairs (bit k, attribute j) with k < w_j, ordered by k, then by j", the first `count` of them.
fn steps(widths: &[u32], count: usize) -> Vec<(usize, usize)> {
    let pairs = (0..16).flat_map(|k| (0..widths.len()).map(move |j| (k, j)));
    pairs.filter(|&(k, j)| k < widths[j] as usize).take(count).collect()
}

/// The cell at an address, its leaf left open: "A cell's index i_j sums β_k × 2^k over k < h_j, β_k being bit k of
/// attribute j."
fn cell(shape: Shape, steps: &[(usize, usize)], address: usize) -> Cell {
    let index = mdeh::index(shape, address as u64).expect("the address is below 2^T");
    let value = steps.iter().fold(0, |value, &(k, j)| value << 1 | (index[j] >> k & 1) as usize);
    let index = index[..shape.attributes as usize].to_vec();
    Cell { bits: Bits { value, count: steps.len() }, index, leaf: 0 }
}

/// The leaves in split order; each cell is told its leaf.
fn leaves(memory: Memory, cells: &mut [Cell], depth: usize) -> Vec<Leaf> {
    let mut addresses = vec![0; cells.len()];
    cells.iter().enumerate().for_each(|(address, cell)| addresses[cell.bits.value] = address);
    let mut leaves: Vec<Leaf> = Vec::new();
    let mut next = 0;
    for (value, &address) in addresses.iter().enumerate() {
        if value == next {
            let leaf = leaf(memory, memory.directory[address], Bits { value, count: depth });
            next += 1 << (depth - leaf.depth());
            leaves.push(leaf);
        }
        cells[address].leaf = leaves.len() - 1;
    }
    leaves
}

/// The leaf of a directory word, which "packs the page number plus one into bits 0–15, or 0 for no page, and the
/// leaf's depth into bits 16–19". Its first cell in split order has the split bits `first`.
fn leaf(memory: Memory, word: u32, first: Bits) -> Leaf {
    let page = (word as usize & 0xffff).checked_sub(1);
    let records = page.map_or_else(Vec::new, |page| records(memory, page));
    Leaf { bits: first.first((word >> 16) as usize), page, records }
}

/// "count (2), then records in split order".
fn records(memory: Memory, page: usize) -> Vec<Record> {
    let bytes = &memory.pages[page * memory.shape.page_bytes()..];
    let count = u16::from_le_bytes([bytes[0], bytes[1]]);
    Records::new(memory.shape, &bytes[2..], count.into()).collect()
}
