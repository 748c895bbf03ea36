//! The steps on packed keys: the first split step in which two keys differ, and split order. Compared with
//! strings of split bits.
use mdeh_tests::compare::Comparisons;
use mdeh_tests::pages::{split_bits, unpacked};
use mdeh_tests::probe::keys::{compare, first_step};
use mdeh_tests::probe::Widths;
use mdeh_tests::random::Random;
use mdeh_tests::shapes::{all_widths, widths_of_shapes};

const SEED: u64 = 0x6d64_6568_2d30_3035;

/// Compares two keys both ways: four comparisons.
fn compare_pair(count: &mut Comparisons, widths: &[u32], x: u64, y: u64) {
    let fit = Widths::new(widths).expect("no width is above 16");
    let [a, b] = [x, y].map(|key| split_bits(widths, unpacked(key)));
    let first = a.iter().zip(&b).take_while(|(a, b)| a == b).count() as u64;
    let about = format_args!("widths {widths:?}, keys {x:#x}, {y:#x}");
    count.same(first_step(&fit, x, y), first, about);
    count.same(first_step(&fit, y, x), first, about);
    count.same(compare(&fit, x, y), a.cmp(&b), about);
    count.same(compare(&fit, y, x), b.cmp(&a), about);
}

/// A key beside another one: any, the same, one that differs in one bit, or one that differs in a few.
fn beside(random: &mut Random, key: u64) -> u64 {
    match random.between(0, 3) {
        0 => random.number(),
        1 => key,
        2 => key ^ (1 << random.between(0, 63)),
        _ => key ^ (random.number() & random.number() & random.number()),
    }
}

#[test]
fn random_pairs_of_keys_of_all_shapes() {
    let mut count = Comparisons::default();
    let mut random = Random::new(SEED);
    for widths in widths_of_shapes(&mut random) {
        for _ in 0..400 {
            let key = random.number();
            let other = beside(&mut random, key);
            compare_pair(&mut count, &widths, key, other);
        }
    }
    count.end(601 * 400 * 4);
}

#[test]
fn all_pairs_of_keys_of_small_shapes() {
    let mut count = Comparisons::default();
    for widths in (1..=4).flat_map(|d| all_widths(d, 5)) {
        let mut keys = vec![0u64];
        for (j, &width) in widths.iter().enumerate() {
            keys = keys
                .iter()
                .flat_map(|key| (0..1 << width).map(move |value| key | value << (16 * j)))
                .collect();
        }
        for &x in &keys {
            for &y in &keys {
                compare_pair(&mut count, &widths, x, y);
            }
        }
    }
    // C(W-1, d-1) shapes of d attributes and W bits, with 4^W pairs of keys
    count.end(4 * (4 + 2 * 16 + 4 * 64 + 8 * 256 + 15 * 1024));
}

#[test]
fn unused_attributes_between_others_and_no_widths_at_all() {
    let mut count = Comparisons::default();
    let mut random = Random::new(SEED);
    for used in 0u32..1 << 4 {
        for _ in 0..200 {
            let widths = [0, 1, 2, 3].map(|j| (used >> j & 1) * random.between(1, 16) as u32);
            let key = random.number();
            let other = beside(&mut random, key);
            compare_pair(&mut count, &widths, key, other);
        }
    }
    count.end(16 * 200 * 4);
}
