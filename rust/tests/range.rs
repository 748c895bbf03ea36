//! The call range on sound stores and on what it meets of unsound ones, compared with a list scanned in full.
use mdeh_tests::compare::Comparisons;
use mdeh_tests::host::{Refused, Shape};
use mdeh_tests::lent::{lend_bytes, LentStore};
use mdeh_tests::plain::image::{Image, Laid, Placed};
use mdeh_tests::plain::met::{each_damaged_count, each_damaged_word, each_shallow_word};
use mdeh_tests::plain::met::{DAMAGED_COUNTS, DAMAGED_WORDS, SHALLOW_WORDS};
use mdeh_tests::plain::model::Model;
use mdeh_tests::plain::range::Intervals;
use mdeh_tests::plain::refusal::refusal;
use mdeh_tests::plain::samples::{
    early_refused, outside, query_of, random_key, random_model, range_of, EARLY,
};
use mdeh_tests::plain::value::bounds;
use mdeh_tests::random::Random;
use mdeh_tests::shapes::{all_widths, marked};

const SEED: u64 = 0x6d64_6568_2d30_3138;

/// Compares answer and output of a range, with an output of so many random bytes between guards.
fn compare(
    count: &mut Comparisons,
    random: &mut Random,
    model: &Model,
    store: &LentStore,
    range: Intervals,
    bytes: usize,
) {
    let mut expected = random.bytes(bytes);
    let mut out = lend_bytes(random, &expected);
    let answer = store.range(range, &mut out);
    let about = format_args!("{:?}, {range:?}, {bytes} bytes", model.shape);
    count.same(answer, model.range(range, &mut expected), about);
    count.same(out.slice() == expected, true, about);
}

/// A random range of the shape's attributes.
fn random_range(random: &mut Random, model: &Model) -> Intervals {
    let subset = random.below(1 << model.widths().len());
    let keys = [0; 2].map(|_| random_key(random, model));
    range_of(random, model, subset, keys)
}

/// How many bytes a range's output takes.
fn output_size(model: &Model, range: Intervals) -> usize {
    12 * model.records.iter().filter(|record| record.lies_in(range)).count()
}

/// A store of these widths with random marks and limits and as many records as a random number of inserts leaves.
fn model_of(random: &mut Random, widths: &[u32]) -> Model {
    let total = widths.iter().sum::<u32>().min(12) as usize;
    let capacity = random.between(1, 3) as u32;
    let shape = marked(random, Shape::new(widths, capacity));
    let mut model = Model::new(shape, 1 + random.below(40), total - random.below(2));
    for payload in 1..=random.between(0, 60) as u32 {
        let key = random_key(random, &model);
        // a refused record is left out
        let _ = model.insert(key, payload);
    }
    model
}

/// Attribute j free, and all of its intervals.
fn intervals(shape: Shape, j: usize) -> Vec<Option<(i32, i32)>> {
    let (least, greatest) = bounds(shape, j);
    let of_low = |low: i32| (low..=greatest).map(move |high| Some((low, high)));
    [None].into_iter().chain((least..=greatest).flat_map(of_low)).collect()
}

/// All ranges of a shape.
fn all_ranges(shape: Shape) -> Vec<Intervals> {
    let mut all = vec![[None; 4]];
    for j in 0..shape.attributes as usize {
        let intervals = intervals(shape, j);
        let with = |range: Intervals, ends| std::array::from_fn(|i| if i == j { ends } else { range[i] });
        all = all.iter().flat_map(|&range| intervals.iter().map(move |&ends| with(range, ends))).collect();
    }
    all
}

// ---- the model

/// "Reads are the non-empty leaves whose box of values meets the query's": some key begins with the region and lies
/// inside, of all keys of a shape.
#[test]
fn a_region_meets_if_some_key_of_it_is_inside() {
    let mut count = Comparisons::default();
    let mut random = Random::new(SEED);
    let mut regions = 0;
    for widths in (1..=4).flat_map(|d| all_widths(d, 6)) {
        let total = widths.iter().sum::<u32>() as usize;
        let model = Model::new(marked(&mut random, Shape::new(&widths, 1)), 1, 0);
        let strings = |x: usize| (0..1usize << x).map(move |n| (0..x).map(|t| n >> t & 1 == 1).collect());
        let keys: Vec<_> =
            strings(total).map(|bits: Vec<bool>| model.record(model.key_of(&bits), 0)).collect();
        for region in (0..=total).flat_map(strings) {
            for _ in 0..10 {
                regions += 1;
                let range = [0, 1, 2, 3].map(|j| any_interval(&mut random, model.shape, j));
                let inside = keys.iter().any(|key| key.bits.starts_with(&region) && key.lies_in(range));
                let about = format_args!("{:?}, {region:?}, {range:?}", model.shape);
                count.same(model.meets(&region, range), inside, about);
            }
        }
    }
    count.end(regions);
}

// ---- sound stores

/// All ranges of shapes that have few, and many of the others, of all shapes up to nine bits.
#[test]
fn every_range_of_small_shapes() {
    let mut count = Comparisons::default();
    let mut random = Random::new(SEED);
    let (mut ranges, mut exhausted) = (0, 0);
    for widths in (1..=4).flat_map(|d| all_widths(d, 9)) {
        let model = model_of(&mut random, &widths);
        let store = LentStore::of(&mut random, &model);
        let number: usize = (0..widths.len()).map(|j| intervals(model.shape, j).len()).product();
        let any = |random: &mut Random| [0, 1, 2, 3].map(|j| any_interval(random, model.shape, j));
        let chosen = match number {
            ..=2100 => all_ranges(model.shape),
            _ => (0..1000).map(|_| any(&mut random)).collect(),
        };
        exhausted += u64::from(number <= 2100);
        ranges += chosen.len() as u64;
        for range in chosen {
            let bytes = random.below(output_size(&model, range) + 30);
            compare(&mut count, &mut random, &model, &store, range, bytes);
        }
    }
    println!("{exhausted} shapes with all ranges");
    count.end(ranges * 2);
}

/// One of the intervals of attribute j, or none.
fn any_interval(random: &mut Random, shape: Shape, j: usize) -> Option<(i32, i32)> {
    let (least, greatest) = bounds(shape, j);
    let [a, b] = [0; 2].map(|_| least + random.below((greatest - least) as usize + 1) as i32);
    (j < shape.attributes as usize && random.below(4) > 0).then_some((a.min(b), a.max(b)))
}

/// Random stores of up to 64 bits, each subset of attributes.
#[test]
fn every_subset_of_given_attributes() {
    let mut count = Comparisons::default();
    let mut random = Random::new(SEED);
    let mut subsets = 0;
    for _ in 0..1000 {
        let model = random_model(&mut random);
        let store = LentStore::of(&mut random, &model);
        for subset in 0..1 << model.widths().len() {
            subsets += 1;
            for _ in 0..4 {
                let keys = [0; 2].map(|_| random_key(&mut random, &model));
                let range = range_of(&mut random, &model, subset, keys);
                let bytes = random.below(output_size(&model, range) + 30);
                compare(&mut count, &mut random, &model, &store, range, bytes);
            }
        }
    }
    count.end(subsets * 4 * 2);
}

/// Intervals at the ends of attributes of one bit and of sixteen.
#[test]
fn the_least_and_the_greatest_width() {
    let mut count = Comparisons::default();
    let mut random = Random::new(SEED);
    // by how far they are above the least value
    let ends = |width: u32| match width {
        1 => vec![None, Some((0, 0)), Some((0, 1)), Some((1, 1))],
        _ => [(0, 0), (0, 1), (1, 0x7fff), (0x7fff, 0x8000), (0x8000, 0xfffe), (0xffff, 0xffff), (0, 0xffff)]
            .map(Some)
            .to_vec(),
    };
    let mut ranges = 0;
    for widths in (1..=4).flat_map(|d| all_of(&[1, 16], d)) {
        for _ in 0..3 {
            let model = model_of(&mut random, &widths);
            let store = LentStore::of(&mut random, &model);
            for _ in 0..200 {
                ranges += 1;
                let choose = |j: usize| widths.get(j).map(|&width| ends(width));
                let choices = [0, 1, 2, 3].map(|j| choose(j).unwrap_or(vec![None]));
                let above = choices.map(|choices| choices[random.below(choices.len())]);
                let least = [0, 1, 2, 3].map(|j| bounds(model.shape, j).0);
                let range = [0, 1, 2, 3].map(|j| above[j].map(|(a, b)| (least[j] + a, least[j] + b)));
                compare(&mut count, &mut random, &model, &store, range, 300);
            }
        }
    }
    count.end(ranges * 2);
}

/// All lists of so many of these.
fn all_of(items: &[u32], count: usize) -> Vec<Vec<u32>> {
    let longer =
        |list: &Vec<u32>| items.iter().map(|&item| [&list[..], &[item]].concat()).collect::<Vec<_>>();
    (0..count).fold(vec![vec![]], |all, _| all.iter().flat_map(longer).collect())
}

/// The ends of an interval at a leaf's least and greatest value, and one value off.
#[test]
fn ends_at_and_beside_a_leafs_edge() {
    let mut count = Comparisons::default();
    let mut random = Random::new(SEED);
    let mut ranges = 0;
    for _ in 0..300 {
        let model = random_model(&mut random);
        let store = LentStore::of(&mut random, &model);
        let leaves = model.leaves();
        for _ in 0..4 {
            let (least, greatest) = model.box_of(&leaves[random.below(leaves.len())].bits);
            for j in 0..model.widths().len() {
                let (first, last) = bounds(model.shape, j);
                let edges = [first.max(least[j] - 1), least[j], greatest[j], last.min(greatest[j] + 1)];
                let mut ends: Vec<(i32, i32)> = edges.iter().flat_map(|&a| edges.map(|b| (a, b))).collect();
                ends.extend(edges.iter().flat_map(|&edge| [(first, edge), (edge, last)]));
                ends.retain(|(low, high)| low <= high);
                let others = random_range(&mut random, &model);
                for (ends, rest) in ends.iter().flat_map(|&ends| [(ends, [None; 4]), (ends, others)]) {
                    ranges += 1;
                    let range = [0, 1, 2, 3].map(|i| if i == j { Some(ends) } else { rest[i] });
                    compare(&mut count, &mut random, &model, &store, range, 120);
                }
            }
        }
    }
    count.end(ranges * 2);
}

#[test]
fn outputs_of_every_length() {
    let mut count = Comparisons::default();
    let mut random = Random::new(SEED);
    let mut lengths = 0;
    for _ in 0..200 {
        let model = random_model(&mut random);
        let store = LentStore::of(&mut random, &model);
        let range = random_range(&mut random, &model);
        // 0, 11, 12 and 24 among them
        let most = output_size(&model, range).min(40 * 12) + 25;
        for bytes in 0..=most {
            lengths += 1;
            compare(&mut count, &mut random, &model, &store, range, bytes);
        }
    }
    count.end(lengths * 2);
}

/// "A single value is the interval with equal ends": total, list and reads of the query. All values are as good as
/// free.
#[test]
fn equal_ends_as_the_query_and_all_values_as_free() {
    let mut count = Comparisons::default();
    let mut random = Random::new(SEED);
    for _ in 0..1000 {
        let model = random_model(&mut random);
        let store = LentStore::of(&mut random, &model);
        let d = model.widths().len();
        for _ in 0..6 {
            let bytes = random.below(12 * model.records.len() + 30);
            let content = random.bytes(bytes);
            let mut outs = [0; 2].map(|_| lend_bytes(&mut random, &content));
            let query = query_of(random.below(1 << d), random_key(&mut random, &model));
            let range = query.map(|wanted| wanted.map(|value| (value, value)));
            let about = format_args!("{:?}, {query:?}, {bytes} bytes", model.shape);
            let found = store.range(range, &mut outs[0]);
            count.same(found, store.query(query, &mut outs[1]), about);
            count.same(outs[0].slice(), outs[1].slice(), about);
            let mut outs = [0; 2].map(|_| lend_bytes(&mut random, &content));
            let range = random_range(&mut random, &model);
            let all = |j: usize| (j < d).then(|| bounds(model.shape, j));
            let full = [0, 1, 2, 3].map(|j| range[j].or(all(j)));
            let about = format_args!("{:?}, {range:?}, {bytes} bytes", model.shape);
            let found = store.range(range, &mut outs[0]);
            count.same(found, store.range(full, &mut outs[1]), about);
            count.same(outs[0].slice(), outs[1].slice(), about);
        }
    }
    count.end(1000 * 6 * 4);
}

#[test]
fn pages_not_read_overwritten() {
    let mut count = Comparisons::default();
    let mut random = Random::new(SEED);
    for _ in 0..1000 {
        let model = random_model(&mut random);
        let laid = Laid::new(&mut random, &model);
        for _ in 0..6 {
            let range = random_range(&mut random, &model);
            let meeting = model.meeting(range);
            let read: Vec<usize> = laid
                .leaves
                .iter()
                .filter(|placed| meeting.contains(&placed.leaf))
                .filter_map(|placed| placed.page)
                .collect();
            let mut image = laid.image.clone();
            for g in (0..model.page_limit).filter(|g| !read.contains(g)) {
                let bytes = random.bytes(image.page(g).len());
                image.page(g).copy_from_slice(&bytes);
            }
            let store = LentStore::new(&mut random, &image);
            let bytes = random.below(output_size(&model, range) + 30);
            compare(&mut count, &mut random, &model, &store, range, bytes);
        }
    }
    count.end(1000 * 6 * 2);
}

// ---- refused calls

/// Compares a range with a refusal, the output as it came.
fn compare_refused(
    count: &mut Comparisons,
    random: &mut Random,
    store: &LentStore,
    range: Intervals,
    refused: Refused,
) {
    let content = random.bytes(60);
    let mut out = lend_bytes(random, &content);
    let about = format_args!("{:?}, {range:?}", store.state.slice());
    count.same(store.range(range, &mut out), Err(refused), about);
    count.same(out.unchanged(), true, about);
}

/// An attribute free, an interval, one whose low or high end is out of bounds, one with its ends reversed, and one with
/// both faults, in each attribute.
#[test]
fn refusals_8_3_and_10_in_every_combination() {
    let mut count = Comparisons::default();
    let mut random = Random::new(SEED);
    let mut refused = 0;
    for stores in 0..16 {
        let mut model = random_model(&mut random);
        while model.widths().len() != stores % 4 + 1 {
            model = random_model(&mut random);
        }
        let store = LentStore::of(&mut random, &model);
        let d = model.widths().len();
        for turn in 0..7usize.pow(4) {
            let kinds = [0, 1, 2, 3].map(|j| turn / 7usize.pow(j) % 7);
            let range = [0, 1, 2, 3].map(|j| {
                let (least, greatest) = bounds(model.shape, j);
                let out = outside(model.shape, j)[random.below(8)];
                [None, Some((least, greatest)), Some((least, out)), Some((out, greatest)), Some((out, out))]
                    .into_iter()
                    .chain([Some((greatest.max(least + 1), least)), Some((i32::MAX, i32::MIN))])
                    .nth(kinds[j])
                    .expect("one of seven")
            });
            let number = match kinds {
                kinds if kinds[d..].iter().any(|&kind| kind != 0) => 8,
                kinds if kinds[..d].iter().any(|&kind| [2, 3, 4, 6].contains(&kind)) => 3,
                kinds if kinds[..d].contains(&5) => 10,
                _ => continue,
            };
            refused += 1;
            compare_refused(&mut count, &mut random, &store, range, refusal(number));
        }
    }
    count.end(refused * 2);
}

#[test]
fn refusal_3_in_attribute_1_beats_10_in_attribute_0() {
    let mut count = Comparisons::default();
    let mut random = Random::new(SEED);
    let model = Model::new(Shape::new(&[4, 4], 2), 4, 2);
    let store = LentStore::of(&mut random, &model);
    let [reversed, large, good] = [Some((5, 3)), Some((3, 16)), Some((3, 5))];
    for (range, number) in [
        ([reversed, None, None, None], 10),
        ([None, reversed, None, None], 10),
        ([reversed, good, None, None], 10),
        ([reversed, large, None, None], 3),
        ([large, reversed, None, None], 3),
        ([Some((16, 15)), None, None, None], 3),
        ([Some((15, 14)), None, None, None], 10),
        ([reversed, large, good, None], 8),
        ([reversed, None, None, reversed], 8),
        ([None, None, large, None], 8),
    ] {
        compare_refused(&mut count, &mut random, &store, range, refusal(number));
    }
    count.end(10 * 2);
}

#[test]
fn refusals_1_14_15_and_2_come_before_8_3_and_10() {
    let mut count = Comparisons::default();
    let mut random = Random::new(SEED);
    for _ in 0..300 {
        let model = random_model(&mut random);
        let laid = Laid::new(&mut random, &model);
        for (image, refused) in early_refused(&laid.image, &model) {
            let store = LentStore::new(&mut random, &image);
            let random_one = random_range(&mut random, &model);
            for range in
                [[None; 4], [Some((0, 0)); 4], [Some((1, 0)); 4], [Some((i32::MAX, i32::MIN)); 4], random_one]
            {
                compare_refused(&mut count, &mut random, &store, range, refused);
            }
        }
    }
    count.end(300 * EARLY * 5 * 2);
}

// ---- damage that a range meets

/// Compares ranges that meet a leaf's region with 9, the output as it came.
fn all_damaged(count: &mut Comparisons, random: &mut Random, model: &Model, leaf: &Placed, image: &Image) {
    let store = LentStore::new(random, image);
    for subset in [0, random.below(1 << model.widths().len()), (1 << model.widths().len()) - 1] {
        let mut bits = model.split_bits(random_key(random, model));
        bits[..leaf.leaf.depth()].copy_from_slice(&leaf.leaf.bits);
        let (inside, other) = (model.key_of(&bits), random_key(random, model));
        let ends = |j: usize| (inside[j].min(other[j]), inside[j].max(other[j]));
        let range = [0, 1, 2, 3].map(|j| (subset >> j & 1 == 1).then(|| ends(j)));
        compare_refused(count, random, &store, range, refusal(9));
    }
}

#[test]
fn a_damaged_word_gives_9() {
    let mut count = Comparisons::default();
    each_damaged_word(SEED, |random, model, placed, image| {
        all_damaged(&mut count, random, model, placed, image);
    });
    count.end(DAMAGED_WORDS * 3 * 2);
}

#[test]
fn a_depth_below_the_region_gives_9() {
    let mut count = Comparisons::default();
    each_shallow_word(SEED, |random, model, placed, image| {
        all_damaged(&mut count, random, model, placed, image);
    });
    count.end(SHALLOW_WORDS * 3 * 2);
}

#[test]
fn a_damaged_count_gives_9() {
    let mut count = Comparisons::default();
    each_damaged_count(SEED, |random, model, placed, image| {
        all_damaged(&mut count, random, model, placed, image);
    });
    count.end(DAMAGED_COUNTS * 3 * 2);
}
