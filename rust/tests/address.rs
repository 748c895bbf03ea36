//! The address map and its inverse, compared with the doubling array and with the formula of document 01, which know no
//! marks.
use mdeh_tests::compare::Comparisons;
use mdeh_tests::host::{self, AddressResult, Index, IndexResult, Refused, Shape};
use mdeh_tests::plain::refusal::{bad_width, refusal};
use mdeh_tests::random::Random;
use mdeh_tests::reference::{formula, steps, DoublingArray};
use mdeh_tests::shapes::{all_widths, marked, random_widths};

const SEED: u64 = 0x6d64_6568_2d30_3031;

/// Widths outside 1–16; the low bits of 257 and of 65,538 are within.
const BAD_WIDTHS: [u32; 5] = [0, 17, 257, 65_536 + 2, u32::MAX];

/// Indices of no attribute. The low 32 bits of some are small numbers.
const HUGE: [u64; 5] = [1 << 16, 1 << 32, (1 << 32) + 1, 1 << 63, u64::MAX];

// ---- every entry

/// The library agrees with the first entries of the doubling array, in both directions.
fn compare_with_array(count: &mut Comparisons, shape: Shape, array: &DoublingArray) {
    for (a, &vector) in array.vectors.iter().enumerate() {
        let a = a as u64;
        count.same(host::address(shape, vector), Ok(a), format_args!("{shape:?}, address of {vector:?}"));
        count.same(host::index(shape, a), Ok(vector), format_args!("{shape:?}, index at {a}"));
    }
}

#[test]
fn every_entry_of_every_shape_of_up_to_ten_bits() {
    let mut count = Comparisons::default();
    let mut shapes = 0;
    for d in 1..=4 {
        for widths in all_widths(d, 10) {
            shapes += 1;
            let shape = Shape::new(&widths, 1);
            let total = widths.iter().sum::<u32>();
            let array = DoublingArray::new(&widths, total as usize);
            assert_eq!(array.vectors.len(), 1 << total);
            compare_with_array(&mut count, shape, &array);
            index_refused(&mut count, shape, 1 << total, refusal(3));
            for j in 0..4 {
                let mut index = [0; 4];
                index[j] = 1 << shape.widths[j];
                address_refused(&mut count, shape, index, refusal(3));
            }
        }
    }
    assert_eq!(shapes, 10 + 45 + 120 + 210);
    // 204,810 entries, both ways; five refusals a shape
    count.end(2 * 204_810 + 5 * 385);
}

// ---- shapes of 11 to 64 bits

#[test]
fn first_entries_of_shapes_of_11_to_64_bits() {
    let mut count = Comparisons::default();
    let mut random = Random::new(SEED);
    for total in 11..=64 {
        for _ in 0..4 {
            let widths = random_widths(&mut random, total);
            let shape = marked(&mut random, Shape::new(&widths, 1));
            compare_with_array(&mut count, shape, &DoublingArray::new(&widths, 11));
        }
    }
    count.end(54 * 4 * 2048 * 2);
}

#[test]
fn random_vectors_of_shapes_of_11_to_64_bits() {
    let mut count = Comparisons::default();
    let mut random = Random::new(SEED);
    for total in 11..=64 {
        for _ in 0..40 {
            let widths = random_widths(&mut random, total);
            let shape = marked(&mut random, Shape::new(&widths, 1));
            let steps = steps(&widths);
            for _ in 0..500 {
                let mut index = [0; 4];
                for (j, &width) in widths.iter().enumerate() {
                    index[j] = random.short(width);
                }
                let about = format_args!("{shape:?}, {index:?}");
                let a = u64::try_from(formula(&steps, index)).expect("addresses have 64 bits");
                count.same(host::address(shape, index), Ok(a), about);
                count.same(host::index(shape, a), Ok(index), about);
            }
        }
    }
    count.end(54 * 40 * 500 * 2);
}

#[test]
fn random_addresses_of_shapes_of_11_to_64_bits() {
    let mut count = Comparisons::default();
    let mut random = Random::new(SEED);
    for total in 11..=64 {
        for _ in 0..40 {
            let widths = random_widths(&mut random, total);
            let shape = marked(&mut random, Shape::new(&widths, 1));
            let steps = steps(&widths);
            for _ in 0..500 {
                let a = random.short(total);
                let about = format_args!("{shape:?}, address {a}");
                let index = host::index(shape, a).unwrap_or_else(|refused| panic!("{about}: {refused:?}"));
                count.same(formula(&steps, index), a as u128, about);
                count.same(host::address(shape, index), Ok(a), about);
            }
        }
    }
    count.end(54 * 40 * 500 * 2);
}

#[test]
fn last_vector_and_first_address_past_it() {
    let mut count = Comparisons::default();
    let mut random = Random::new(SEED);
    for total in 1..=64 {
        for _ in 0..40 {
            let widths = random_widths(&mut random, total);
            let shape = marked(&mut random, Shape::new(&widths, 1));
            let about = format_args!("{shape:?}");
            let ones = shape.widths.map(|width| (1 << width) - 1);
            let last = u64::MAX >> (64 - total);
            count.same(formula(&steps(&widths), ones), last as u128, about);
            count.same(host::address(shape, ones), Ok(last), about);
            count.same(host::index(shape, last), Ok(ones), about);
            if total < 64 {
                for past in [last + 1, last + 2, last + (1 << 32), u64::MAX] {
                    index_refused(&mut count, shape, past, refusal(3));
                }
            }
        }
    }
    let widest = Shape::new(&[16; 4], 1);
    count.same(host::index(widest, u64::MAX), Ok([65_535; 4]), format_args!("{widest:?}"));
    count.same(host::address(widest, [65_535; 4]), Ok(u64::MAX), format_args!("{widest:?}"));
    count.end(64 * 40 * 3 + 63 * 40 * 4 + 2);
}

// ---- refused calls

/// Both calls are refused so, and return zeros beside the number and the attribute.
fn both_refused(count: &mut Comparisons, shape: Shape, index: [u64; 4], address: u64, refused: Refused) {
    address_refused(count, shape, index, refused);
    index_refused(count, shape, address, refused);
}

fn address_refused(count: &mut Comparisons, shape: Shape, index: [u64; 4], refused: Refused) {
    let Refused { number, attribute, .. } = refused;
    let expected = AddressResult { number, attribute, address: 0 };
    count.same(host::address_result(shape, index), expected, format_args!("{shape:?}, {index:?}"));
}

fn index_refused(count: &mut Comparisons, shape: Shape, address: u64, refused: Refused) {
    let Refused { number, attribute, .. } = refused;
    let expected = IndexResult { number, attribute, index: Index { i0: 0, i1: 0, i2: 0, i3: 0 } };
    count.same(host::index_result(shape, address), expected, format_args!("{shape:?}, address {address}"));
}

/// Shapes with one number outside its bounds, and the refusal of each.
fn bad_shapes() -> Vec<(Shape, Refused)> {
    let mut shapes = Vec::new();
    for attributes in [0, 5, 6, 257, 65_536 + 2, 1 << 31, u32::MAX] {
        shapes.push((Shape { attributes, ..Shape::new(&[2; 4], 2) }, refusal(1)));
    }
    for attributes in 1..=4 {
        for j in 0..attributes {
            for width in BAD_WIDTHS {
                let mut widths = [2; 4];
                widths[j as usize] = width;
                shapes.push((Shape { attributes, ..Shape::new(&widths, 2) }, bad_width(j)));
            }
        }
        for capacity in [0, 17, 257, 65_536 + 1, u32::MAX] {
            shapes.push((Shape { attributes, ..Shape::new(&[2; 4], capacity) }, refusal(15)));
        }
    }
    assert_eq!(shapes.len(), 7 + 10 * 5 + 4 * 5);
    shapes
}

#[test]
fn shape_outside_its_bounds_is_refused() {
    let mut count = Comparisons::default();
    for (shape, refused) in bad_shapes() {
        both_refused(&mut count, shape, [0; 4], 0, refused);
        both_refused(&mut count, shape, [1; 4], 1, refused);
    }
    count.end(77 * 4);
}

#[test]
fn refusals_1_14_and_15_come_before_3() {
    let mut count = Comparisons::default();
    for (shape, refused) in bad_shapes() {
        for huge in HUGE {
            both_refused(&mut count, shape, [huge; 4], huge, refused);
        }
    }
    count.end(77 * 5 * 2);
}

#[test]
fn shape_within_its_bounds_is_accepted() {
    let mut count = Comparisons::default();
    for attributes in 1..=4 {
        for width in 1..=16 {
            for capacity in 1..=16 {
                let shape = Shape { attributes, ..Shape::new(&[width; 4], capacity) };
                count.same(host::address(shape, [1, 0, 0, 0]), Ok(1), format_args!("{shape:?}"));
                count.same(host::index(shape, 1), Ok([1, 0, 0, 0]), format_args!("{shape:?}"));
            }
        }
    }
    count.end(4 * 16 * 16 * 2);
}

#[test]
fn widths_past_d_are_ignored() {
    let mut count = Comparisons::default();
    for d in 1..4 {
        let used = vec![3; d];
        let array = DoublingArray::new(&used, 3 * d);
        for unused in BAD_WIDTHS.into_iter().chain(1..=16) {
            for places in 1..1 << (4 - d) {
                let mut shape = Shape::new(&used, 1);
                for j in d..4 {
                    if places & (1 << (j - d)) != 0 {
                        shape.widths[j] = unused;
                    }
                }
                compare_with_array(&mut count, shape, &array);
                index_refused(&mut count, shape, 1 << (3 * d), refusal(3));
                for j in d..4 {
                    let mut index = [0; 4];
                    index[j] = 1;
                    address_refused(&mut count, shape, index, refusal(3));
                }
            }
        }
    }
    count.end(21 * (7 * (16 + 1 + 3) + 3 * (128 + 1 + 2) + (1024 + 1 + 1)));
}

#[test]
fn index_out_of_range_is_refused_with_3() {
    let mut count = Comparisons::default();
    for d in 1..=4 {
        for j in 0..d {
            for width in 1..=16 {
                let mut widths = vec![3; d];
                widths[j] = width;
                let shape = Shape::new(&widths, 1);
                let steps = steps(&widths);
                let ones = shape.widths.map(|width| (1 << width) - 1);
                for mut index in [[0; 4], ones] {
                    index[j] = (1 << width) - 1;
                    let a = formula(&steps, index) as u64;
                    count.same(host::address(shape, index), Ok(a), format_args!("{shape:?}, {index:?}"));
                    for past in
                        [1 << width, (1 << width) + 1, (1 << width) + (1 << 32)].into_iter().chain(HUGE)
                    {
                        index[j] = past;
                        address_refused(&mut count, shape, index, refusal(3));
                    }
                }
            }
        }
    }
    count.end(10 * 16 * 2 * 9);
}

#[test]
fn unused_index_other_than_0_is_refused_with_3() {
    let mut count = Comparisons::default();
    for d in 1..4 {
        let shape = Shape::new(&vec![3; d], 1);
        let ones = shape.widths.map(|width| (1 << width) - 1);
        for j in d..4 {
            for mut index in [[0; 4], ones] {
                for value in [1, 2, 65_535].into_iter().chain(HUGE) {
                    index[j] = value;
                    address_refused(&mut count, shape, index, refusal(3));
                }
            }
        }
    }
    count.end(6 * 2 * 8);
}

// ---- the proof table

#[test]
fn entries_of_the_proof_table() {
    let mut count = Comparisons::default();
    let entries: [(&[u32], [u64; 4], u64); 8] = [
        (&[2, 2], [0, 0, 0, 0], 0),
        (&[2, 2], [1, 0, 0, 0], 1),
        (&[2, 2], [0, 1, 0, 0], 2),
        (&[2, 2], [3, 1, 0, 0], 7),
        (&[2, 2], [0, 2, 0, 0], 8),
        (&[2, 2], [3, 3, 0, 0], 15),
        (&[1, 3, 2], [1, 2, 1, 0], 11),
        (&[1, 3, 2], [0, 7, 3, 0], 59),
    ];
    for (widths, index, a) in entries {
        let shape = Shape::new(widths, 1);
        let array = DoublingArray::new(widths, widths.iter().sum::<u32>() as usize);
        let about = format_args!("{shape:?}, {index:?}");
        count.same(host::address(shape, index), Ok(a), about);
        count.same(host::index(shape, a), Ok(index), about);
        count.same(array.vectors[a as usize], index, about);
        count.same(formula(&steps(widths), index), a as u128, about);
    }
    count.end(8 * 4);
}
