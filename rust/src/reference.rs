//! The address map from document 01's words, twice: the doubling array, built entry by entry, and the
//! formula. Neither takes anything from the library.

/// The split steps of these widths: the pairs (bit k, attribute j) with k < w_j, ordered by k, then by j.
pub fn steps(widths: &[u32]) -> Vec<(u32, usize)> {
    let mut pairs = Vec::new();
    for (j, &width) in widths.iter().enumerate() {
        for k in 0..width {
            pairs.push((k, j));
        }
    }
    pairs.sort();
    pairs
}

/// The doubling array after some steps: the index vectors by their addresses.
pub struct DoublingArray {
    pub vectors: Vec<[u64; 4]>,
}

impl DoublingArray {
    /// The array of these widths after the first `count` steps: "size 1 with the zero vector at 0;
    /// step t appends 2^t addresses, holding the vectors whose new bit is set, ordered by i_z, then by
    /// the other indices from attribute 0, the last fastest".
    pub fn new(widths: &[u32], count: usize) -> DoublingArray {
        let mut vectors = vec![[0; 4]];
        let mut depths = [0u32; 4];
        for (t, &(k, z)) in steps(widths).iter().take(count).enumerate() {
            depths[z] += 1;
            let mut fresh = all_below(depths);
            fresh.retain(|vector| vector[z] & (1 << k) != 0);
            fresh.sort_by_cached_key(|vector| order(vector, z));
            assert_eq!(fresh.len(), 1 << t);
            vectors.extend(fresh);
        }
        DoublingArray { vectors }
    }
}

/// Every vector with i_j below 2^h_j, in no order that matters.
fn all_below(depths: [u32; 4]) -> Vec<[u64; 4]> {
    let mut all = vec![[0; 4]];
    for (j, &depth) in depths.iter().enumerate() {
        let mut next = Vec::with_capacity(all.len() << depth);
        for vector in all {
            for i in 0..1 << depth {
                let mut longer = vector;
                longer[j] = i;
                next.push(longer);
            }
        }
        all = next;
    }
    all
}

/// A vector's indices, that of attribute z first and the others from attribute 0.
fn order(vector: &[u64; 4], z: usize) -> Vec<u64> {
    let mut indices = vec![vector[z]];
    indices.extend((0..4).filter(|&j| j != z).map(|j| vector[j]));
    indices
}

/// The address of an index vector by the formula of document 01, "Address map", in 128 bits.
pub fn formula(steps: &[(u32, usize)], index: [u64; 4]) -> u128 {
    let latest = (0..4)
        .filter(|&j| index[j] != 0)
        .map(|j| {
            let highest = (0..64).rev().find(|&s| 1u64 << s <= index[j]).unwrap();
            steps.iter().position(|&step| step == (highest, j)).expect("the index is below 2^w_j")
        })
        .max();
    let Some(latest) = latest else {
        return 0;
    };
    let z = steps[latest].1;
    let extent = |j: usize| 1u128 << steps[..latest].iter().filter(|step| step.1 == j).count();
    let mut sum = index[z] as u128 * (0..4).filter(|&r| r != z).map(extent).product::<u128>();
    for j in (0..4).filter(|&j| j != z) {
        sum += index[j] as u128 * (j + 1..4).filter(|&r| r != z).map(extent).product::<u128>();
    }
    sum
}
