//! Records, and the leaves of a set of them (document 01, "Regions of a set").
use super::value::field_of;

/// A record: its key's split bits and values, and its payload.
#[derive(Clone, Debug, PartialEq)]
pub struct Record {
    pub bits: Vec<bool>,
    pub key: [i32; 4],
    pub payload: u32,
}

impl Record {
    /// "each four 16-bit values (unused ones 0) and a 32-bit payload", little-endian.
    pub fn bytes(&self) -> Vec<u8> {
        let values = self.key.iter().flat_map(|&value| field_of(value).to_le_bytes());
        values.chain(self.payload.to_le_bytes()).collect()
    }

    /// "A record matches if it has the query's value in every given attribute."
    pub fn matches(&self, query: [Option<i32>; 4]) -> bool {
        query.iter().zip(self.key).all(|(wanted, value)| wanted.is_none_or(|wanted| wanted == value))
    }
}

/// A leaf: its string of split bits, and the records whose keys begin with it, in split order.
#[derive(Clone, Debug, PartialEq)]
pub struct Leaf {
    pub bits: Vec<bool>,
    pub records: Vec<Record>,
}

impl Leaf {
    pub fn depth(&self) -> usize {
        self.bits.len()
    }
}

/// "Undivided regions whose every shorter beginning is divided are the leaves, the empty string included", in
/// split order.
pub fn leaves(capacity: usize, records: &[Record]) -> Vec<Leaf> {
    let mut all = Vec::new();
    add_leaves(capacity, vec![], records.to_vec(), &mut all);
    all
}

/// The leaves below a region with these records: "It is divided exactly if more than b keys begin with it."
fn add_leaves(capacity: usize, region: Vec<bool>, mut records: Vec<Record>, all: &mut Vec<Leaf>) {
    if records.len() <= capacity {
        records.sort_by(|r, s| r.bits.cmp(&s.bits));
        all.push(Leaf { bits: region, records });
        return;
    }
    let (ones, zeros): (Vec<Record>, Vec<Record>) = records.into_iter().partition(|r| r.bits[region.len()]);
    for (bit, side) in [(false, zeros), (true, ones)] {
        add_leaves(capacity, [&region[..], &[bit]].concat(), side, all);
    }
}

/// "T is the greatest leaf depth."
pub fn greatest_depth(leaves: &[Leaf]) -> usize {
    leaves.iter().map(Leaf::depth).max().expect("there is always a leaf")
}

/// "the tally of leaves (empty ones too) at depths 0–12".
pub fn tally(leaves: &[Leaf]) -> [u32; 13] {
    let mut tally = [0; 13];
    leaves.iter().for_each(|leaf| tally[leaf.depth()] += 1);
    tally
}

/// The leaf that a string begins with.
pub fn leaf_of(leaves: &[Leaf], bits: &[bool]) -> usize {
    // In split order, it is the last leaf that does not come after the string.
    let place = leaves.partition_point(|leaf| leaf.bits[..] <= *bits) - 1;
    assert!(bits.starts_with(&leaves[place].bits));
    place
}
