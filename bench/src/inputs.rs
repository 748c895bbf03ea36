//! What the steps are timed on. Inputs are kept as long as the program runs.
use mdeh_tests::random::Random;

/// The widths of the shapes: one, two and four attributes of 16 bits, and four of unlike widths.
pub const SHAPES: [&[u32]; 4] = [&[16], &[16, 16], &[16, 16, 16, 16], &[4, 8, 12, 16]];

/// Random numbers below 2^w_j for each attribute, 0 for an unused one: keys, or index vectors.
pub fn vectors(random: &mut Random, widths: &[u32], count: usize) -> &'static [[u32; 4]] {
    let mut all = vec![[0; 4]; count];
    for vector in &mut all {
        for (j, &width) in widths.iter().enumerate() {
            vector[j] = random.between(0, (1 << width) - 1) as u32;
        }
    }
    all.leak()
}

/// These inputs again and again, so many in all.
pub fn repeated<T: Copy>(inputs: &[T], count: usize) -> &'static [T] {
    inputs.iter().copied().cycle().take(count).collect::<Vec<T>>().leak()
}

/// Widths as the table shows them.
pub fn shown(widths: &[u32]) -> String {
    let widths: Vec<String> = widths.iter().map(u32::to_string).collect();
    format!("widths {}", widths.join(", "))
}
