//! Where an insert is refused with 6 next: "a region of L split bits" with b records takes no other key.
use crate::picture::{Bits, Picture};

/// The regions of L split bits that hold the most records.
#[derive(Default)]
pub struct Fullest {
    /// how many records each of them holds; 0 in a store without records
    pub records: usize,
    /// how many more each of them takes
    pub more: usize,
    /// whether no region has more keys than a page takes, so that none is refused with 6
    pub never: bool,
    /// in split order; none in a store without records
    pub regions: Vec<Region>,
}

/// A region of L split bits: all of a leaf, or a part of one.
#[derive(Clone, Copy, Debug, PartialEq, Eq)]
pub struct Region {
    pub bits: Bits,
    /// the place of the leaf in which it lies
    pub leaf: usize,
}

impl Fullest {
    /// The fullest regions of a picture.
    pub fn of(picture: &Picture) -> Fullest {
        let rest = picture.widths().iter().sum::<u32>() as usize - picture.depth_limit;
        let never = rest < 5 && 1 << rest <= picture.capacity();
        let counted: Vec<(usize, Region)> = counted(picture).collect();
        let records = counted.iter().map(|&(records, _)| records).max().unwrap_or(0);
        let most = counted.into_iter().filter(|&(count, _)| count == records);
        let regions = most.map(|(_, region)| region).collect();
        Fullest { records, more: picture.capacity() - records, never, regions }
    }

    /// Whether an insert of a further key into one of them is refused with 6.
    pub fn refuses(&self) -> bool {
        self.more == 0 && !self.never
    }

    /// The places of the leaves in which a further key of a region is refused with 6, each once.
    pub fn leaves(&self) -> Vec<usize> {
        let full = self.regions.iter().filter(|_| self.refuses());
        let mut leaves: Vec<usize> = full.map(|region| region.leaf).collect();
        leaves.dedup();
        leaves
    }
}

/// The regions of L split bits that hold records, each with their count, in split order. The records of a leaf are in
/// split order, so those of a region stand together.
fn counted(picture: &Picture) -> impl Iterator<Item = (usize, Region)> + '_ {
    picture.leaves.iter().enumerate().flat_map(|(place, leaf)| {
        let bits: Vec<Bits> = leaf.records.iter().map(|record| picture.split_bits(record)).collect();
        let runs = bits.chunk_by(|a, b| a == b);
        let regions = runs.map(|run| (run.len(), Region { bits: run[0], leaf: place }));
        regions.collect::<Vec<_>>()
    })
}
