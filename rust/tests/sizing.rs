//! What the crate says of sizes: `room` beside its formula and beside real fills, what is certain of numbers 6 and 7,
//! the laws of `spread`, `rank` and `reversed`, and gateway rows in the memory that the documents name.
use mdeh::{rank, reversed, spread, Refusal, Room, Shape, Store};
use mdeh::{MOST_PAGES, MOST_RECORDS, MOST_WORDS, NO_VALUE, STATE_WORDS};
use mdeh_tests::compare::Comparisons;
use mdeh_tests::random::Random;
use mdeh_tests::shapes::{marked, random_widths};
use std::collections::HashSet;

const SEED: u64 = 0x6d64_6568_2d30_3235;

/// W of a shape in bounds.
fn bits(shape: Shape) -> u32 {
    shape.widths[..shape.attributes as usize].iter().sum()
}

/// A random shape of so many bits.
fn shape_of(random: &mut Random, bits: u32, capacity: u32) -> Shape {
    let widths = random_widths(random, bits);
    marked(random, Shape::new(&widths, capacity))
}

// ---- the formula

/// Whether random keys stay within b in the cells of a depth, by logarithms. Panics where rounding could
/// tell.
fn divides(shape: Shape, records: u32, depth: u32) -> bool {
    let keys = 2f64.powi((bits(shape) - depth) as i32);
    if keys <= shape.capacity.into() || records <= shape.capacity {
        return true;
    }
    let cells = f64::from(depth) * 2f64.ln();
    let share = f64::from(records).ln() - cells;
    let choices: f64 = (1..=shape.capacity + 1).map(|i| share - f64::from(i).ln()).sum();
    let expected = 1000f64.ln() + cells + choices;
    assert!(expected.abs() > 1e-9, "{shape:?}, {records} records");
    expected <= 0.0
}

/// The room of a shape in bounds, by the words of its documentation.
fn room_of(shape: Shape, records: u32) -> Room {
    let deepest = bits(shape).min(12);
    let depth = (0..=deepest).find(|&depth| divides(shape, records, depth));
    let holds = depth.is_some() && f64::from(records) <= 2f64.powi(bits(shape) as i32);
    let (depth, records) = match holds {
        true => (depth.expect("it holds"), records.into()),
        false => (deepest, u64::from(records).min(65_536)),
    };
    let half_full = (2 * records).div_ceil(shape.capacity.into()) + 8;
    let pages = half_full.min(records.max(1)).min(1 << depth) as usize;
    Room { words: 1 << depth, bytes: pages * (2 + 12 * shape.capacity as usize), holds }
}

#[test]
fn rooms_by_the_formula() {
    let mut count = Comparisons::default();
    let mut random = Random::new(SEED);
    let mut held = 0;
    for total in 1..=64 {
        for capacity in 1..=16 {
            let shape = shape_of(&mut random, total, capacity);
            let some = (0..20).map(|_| random.short(32) as u32).collect::<Vec<_>>();
            let edges = [0, 1, 2, 16, 17, 4096, 65_535, 65_536, 65_537, u32::MAX];
            for records in some.into_iter().chain(edges) {
                let room = shape.room(records);
                held += u64::from(room.holds);
                count.same(room, room_of(shape, records), format_args!("{shape:?}, {records} records"));
            }
        }
    }
    println!("{held} hold");
    assert!(held > 5000 && held < 64 * 16 * 30 - 5000);
    count.end(64 * 16 * 30);
}

#[test]
fn rooms_by_hand() {
    let gateway = Shape::new(&[7, 5, 7], 16);
    // one page, one cell; two pages, once a cell can have 17 keys
    assert_eq!(gateway.room(0), Room { words: 1, bytes: 194, holds: true });
    assert_eq!(gateway.room(16), Room { words: 1, bytes: 194, holds: true });
    assert_eq!(Shape::new(&[4], 16).room(16), Room { words: 1, bytes: 194, holds: true });
    assert_eq!(Shape::new(&[5], 16).room(32), Room { words: 2, bytes: 2 * 194, holds: true });
    // more records than keys: 5 pages half full and 8
    assert_eq!(Shape::new(&[5], 16).room(33), Room { words: 32, bytes: 13 * 194, holds: false });
    // every key of 16 bits
    assert_eq!(Shape::new(&[16], 16).room(65_536), Room { words: 4096, bytes: 4096 * 194, holds: true });
    assert_eq!(
        Shape::new(&[16; 4], 16).room(u32::MAX),
        Room { words: 4096, bytes: 4096 * 194, holds: false }
    );
    assert!(gateway.room(11_000).holds && !gateway.room(13_000).holds);
    assert_eq!((MOST_WORDS, MOST_PAGES, MOST_RECORDS), (4096, 4096, 65_536));
}

#[test]
fn shapes_out_of_bounds_have_no_room() {
    let nothing = Room { words: 0, bytes: 0, holds: false };
    let shape = |attributes, widths, capacity| Shape { attributes, widths, capacity, signs: 0 };
    for records in [0, 1, 70_000, u32::MAX] {
        for attributes in [0, 5, u32::MAX] {
            assert_eq!(shape(attributes, [3; 4], 2).room(records), nothing);
        }
        for (j, width) in (0..4).flat_map(|j| [(j, 0), (j, 17), (j, u32::MAX)]) {
            let mut widths = [3; 4];
            widths[j] = width;
            assert_eq!(shape(4, widths, 2).room(records), nothing);
            assert_eq!(shape(j as u32, widths, 2).room(records).words > 0, j > 0);
        }
        for capacity in [0, 17, u32::MAX] {
            assert_eq!(shape(4, [3; 4], capacity).room(records), nothing);
        }
    }
}

// ---- real fills

/// The key of a number below 2^W: its parts, each from the least value of its attribute on.
fn key_of(shape: Shape, mut number: u64) -> [i32; 4] {
    [0, 1, 2, 3].map(|j| {
        if j >= shape.attributes as usize {
            return 0;
        }
        let part = number & ((1 << shape.widths[j]) - 1);
        number >>= shape.widths[j];
        shape.values(j).start() + part as i32
    })
}

/// So many distinct keys, drawn evenly from all.
fn even_keys(random: &mut Random, shape: Shape, count: usize) -> Vec<[i32; 4]> {
    let bits = bits(shape);
    if bits <= 16 {
        let mut numbers: Vec<u64> = (0..1 << bits).collect();
        random.shuffle(&mut numbers);
        return numbers[..count].iter().map(|&number| key_of(shape, number)).collect();
    }
    let mut numbers = HashSet::new();
    let mut draw = || loop {
        let number = random.number() >> (64 - bits);
        if numbers.insert(number) {
            return key_of(shape, number);
        }
    };
    (0..count).map(|_| draw()).collect()
}

/// The first refusal of a fill in this memory, if there is one.
fn filled(shape: Shape, keys: &[[i32; 4]], words: usize, bytes: usize) -> Option<Refusal> {
    let mut store = Store::fresh(shape, [0; STATE_WORDS], vec![0; words], vec![0; bytes]).expect("accepted");
    keys.iter().find_map(|&key| store.insert(key, 1).err())
}

/// The most records, up to the most of a store, of which a room says that it holds them.
fn most_held(shape: Shape) -> u32 {
    (0..=65_536).rev().step_by(16).find(|&records| shape.room(records).holds).unwrap_or(0)
}

/// Random shapes of every capacity, and as many records as the room may say it holds, or fewer.
fn each_room(random: &mut Random, rounds: usize, mut each: impl FnMut(&mut Random, Shape, u32, Room)) {
    for _ in 0..rounds {
        for capacity in 1..=16 {
            let total = random.between(1, 40) as u32;
            let shape = shape_of(random, total, capacity);
            let most = most_held(shape);
            let records = [most, random.between(0, most.into()) as u32][random.below(2)];
            let room = shape.room(records);
            if room.holds {
                each(random, shape, records, room);
            }
        }
    }
}

/// Random keys fit in exactly the words and bytes.
#[test]
fn random_keys_find_room() {
    let mut random = Random::new(SEED);
    let (mut fills, mut depths, mut pages) = (0, 0, 0);
    each_room(&mut random, 120, |random, shape, records, room| {
        let keys = even_keys(random, shape, records as usize);
        fills += 1;
        match filled(shape, &keys, room.words, room.bytes) {
            None => (),
            Some(Refusal::Depth) => depths += 1,
            Some(refusal) => {
                assert_eq!(refusal, Refusal::Pages, "{shape:?}, {records} records");
                pages += 1;
            }
        }
    });
    println!("{fills} fills: {depths} refused with 6, {pages} with 7");
    // one of a thousand with 6 on the average: more than six of some 1,900 would hardly be chance
    assert!(fills > 1500 && depths <= 6 && pages == 0);
}

/// Ranks that are spread as an even grid fit too: a leaf is divided into halves that are half full.
#[test]
fn grids_find_room() {
    for (capacity, bits) in (1..=16).flat_map(|capacity| (6..=13).map(move |bits| (capacity, bits))) {
        let shape = Shape::new(&[bits], capacity);
        for count in (1..=1 << bits).step_by((1 << bits) / 40 + 1) {
            let keys: Vec<[i32; 4]> =
                (0..count).map(|rank| [spread(rank, count, bits) as i32, 0, 0, 0]).collect();
            let room = shape.room(count);
            let refusal = filled(shape, &keys, room.words, room.bytes);
            assert!(refusal.is_none() || !room.holds, "{shape:?}, {count} ranks: {refusal:?}");
        }
    }
}

/// With an eighth of the words 6 comes in most fills where it is a matter of chance, with half of the pages 7 in all
/// where they are fewer than records and leaves.
#[test]
fn less_memory_does_not_do() {
    let mut random = Random::new(SEED);
    let (mut short, mut depths, mut lacking) = (0, 0, 0);
    each_room(&mut random, 60, |random, shape, records, room| {
        let (words, pages) = (room.words, room.bytes / shape.page_bytes());
        let by_chance = (1u64 << bits(shape)) / (words as u64) > shape.capacity.into();
        if by_chance && shape.capacity >= 4 && words >= 8 {
            let keys = even_keys(random, shape, records as usize);
            short += 1;
            depths += u32::from(filled(shape, &keys, words / 8, room.bytes) == Some(Refusal::Depth));
        }
        if pages > 100 && pages < words && pages < records as usize {
            let keys = even_keys(random, shape, records as usize);
            lacking += 1;
            let refusal = filled(shape, &keys, words, pages / 2 * shape.page_bytes());
            assert_eq!(refusal, Some(Refusal::Pages), "{shape:?}, {records} records");
        }
    });
    println!("6 in {depths} of {short} fills, 7 in {lacking}");
    assert!(short > 200 && depths * 10 > short * 9 && lacking > 100);
}

/// Keys of a few clusters: the low bits vary, the high bits seldom.
fn clustered_keys(random: &mut Random, shape: Shape, count: usize) -> Vec<[i32; 4]> {
    let bits = bits(shape);
    (0..count).map(|_| key_of(shape, random.short(bits) ^ random.short(bits))).collect()
}

/// With 2^L pages no insert is refused with 7, and with 2^(W-L) up to b none with 6, whatever the keys.
#[test]
fn what_never_comes() {
    let mut random = Random::new(SEED);
    let (mut depths, mut all) = (0, 0);
    for round in 0..400 {
        let total = random.between(1, 30) as u32;
        let capacity = random.between(1, 16) as u32;
        let shape = shape_of(&mut random, total, capacity);
        let limit = random.between(0, 12) as u32;
        let depth = limit.min(total);
        let never_6 = 1u64 << (total - depth) <= capacity.into();
        let (words, bytes) = (1 << limit, (1 << depth) * shape.page_bytes());
        let mut store =
            Store::fresh(shape, [0; STATE_WORDS], vec![0; words], vec![0; bytes]).expect("accepted");
        let keys = match round % 2 {
            0 => clustered_keys(&mut random, shape, 3000),
            _ => even_keys(&mut random, shape, 3000.min(1 << total.min(12))),
        };
        for key in keys {
            match store.insert(key, 1) {
                Ok(_) | Err(Refusal::Stored) => (),
                Err(Refusal::Depth) if !never_6 => depths += 1,
                Err(refusal) => panic!("{shape:?}, {words} words: {key:?} is refused with {refusal:?}"),
            }
        }
        all += u32::from(never_6);
    }
    println!("{depths} refused with 6, none of {all} stores that have a word for every b keys");
    assert!(depths > 1000 && all > 50);
}

/// Sixteen bits, b = 16, 4,096 words and pages hold every key.
#[test]
fn every_key_of_sixteen_bits() {
    let mut random = Random::new(SEED);
    let shape = Shape::new(&[6, 5, 5], 16);
    let keys = even_keys(&mut random, shape, 65_536);
    assert_eq!(filled(shape, &keys, MOST_WORDS, MOST_PAGES * shape.page_bytes()), None);
    let room = shape.room(65_536);
    assert!(room.holds);
    assert_eq!(filled(shape, &keys, room.words, room.bytes), None);
}

// ---- values

/// Every rank of every count: in order, within the width, taken back, as even as can be.
#[test]
fn ranks_are_spread_and_taken_back() {
    let mut random = Random::new(SEED);
    let few = (0..=8).flat_map(|width| (1..=1u32 << width).map(move |count| (count, width)));
    let mut many: Vec<_> = few.collect();
    many.extend((9..=16).map(|width| (1u32 << width, width)));
    many.extend((9..=16).flat_map(|width| [(1, width), (random.between(2, 1 << width) as u32, width)]));
    for (count, width) in many {
        let values: Vec<u32> = (0..count).map(|r| spread(r, count, width)).collect();
        assert!(values.windows(2).all(|pair| pair[0] < pair[1]), "{count}, {width}");
        assert_eq!(values[0], 0);
        let last = values[values.len() - 1];
        assert!(
            last < 1 << width && (u64::from(last) + 1) * u64::from(count) >= (u64::from(count) - 1) << width
        );
        for (r, value) in (0..count).zip(values) {
            assert_eq!(value, (f64::from(r) * f64::from(1u32 << width) / f64::from(count)).floor() as u32);
            assert_eq!(rank(value, count, width), r, "{count}, {width}");
        }
    }
}

/// `rank` of any value is the least rank that is spread to it or above, or the count.
#[test]
fn the_rank_of_any_value() {
    for width in 0..=7 {
        for count in 0..=1 << width {
            for value in 0..=1 << width {
                let least = (0..count).find(|&r| spread(r, count, width) >= value).unwrap_or(count);
                assert_eq!(rank(value, count, width), least, "{value}, {count}, {width}");
            }
        }
    }
}

/// Any arguments: no value where there is none, and the store refuses it.
#[test]
fn numbers_that_are_none_of_the_attribute() {
    let edges = [0, 1, 2, 15, 16, 17, 31, 32, 33, 65_535, 65_536, 65_537, 1 << 31, u32::MAX];
    for width in edges {
        let values = if width <= 16 { 1u32 << width } else { 0 };
        for value in edges {
            assert_eq!(reversed(value, width) == NO_VALUE, value >= values, "{value}, {width}");
            for count in edges {
                let about = format!("{value}, {count}, {width}");
                let spread = spread(value, count, width);
                assert_eq!(spread == NO_VALUE, value >= count || count > values, "{about}");
                assert!(spread < values || spread == NO_VALUE, "{about}");
                let rank = rank(value, count, width);
                assert!(rank <= count, "{about}");
                assert!(rank == count || value < values && count <= values, "{about}");
            }
        }
    }
    for shape in [Shape::new(&[16], 2), Shape::new(&[16], 2).signed(0)] {
        let mut store = Store::fresh(shape, [0; STATE_WORDS], [0; 2], [0; 52]).expect("accepted");
        assert_eq!(store.insert([NO_VALUE as i32], 1), Err(Refusal::Value));
    }
}

#[test]
fn bits_are_reversed() {
    for width in 1..=16 {
        for value in (0..1u32 << width).step_by(if width > 10 { 37 } else { 1 }) {
            let expected = (0..width).fold(0, |bits, k| bits << 1 | value >> k & 1);
            assert_eq!(reversed(value, width), expected);
            assert_eq!(reversed(expected, width), value);
        }
    }
}

// ---- gateway rows

/// Codes from 0 to 99, slots from 0 to 23, releases from 398 to 479: 20,000 random rows.
fn rows(random: &mut Random) -> Vec<[u32; 3]> {
    let row = |_| [random.below(100) as u32, random.below(24) as u32, 398 + random.below(82) as u32];
    (0..20_000).map(row).collect()
}

/// How many rows are stored before the first that is refused, but for those stored already, in the greatest memory.
fn held(shape: Shape, rows: &[[u32; 3]], key: impl Fn([u32; 3]) -> [u32; 4]) -> usize {
    let bytes = vec![0; MOST_PAGES * shape.page_bytes()];
    let mut store = Store::fresh(shape, [0; STATE_WORDS], vec![0; MOST_WORDS], bytes).expect("accepted");
    let mut stored = 0;
    for &row in rows {
        match store.insert(key(row).map(|value| value as i32), 1) {
            Ok(_) => stored += 1,
            Err(Refusal::Stored) => (),
            Err(refusal) => {
                assert_eq!(refusal, Refusal::Depth);
                return stored;
            }
        }
    }
    assert!(stored > 18_800);
    20_000
}

/// What the documents say of gateway rows: plain values, a bias, spread and reversed, with the spare attribute.
#[test]
fn gateway_rows() {
    let mut random = Random::new(SEED);
    let even = |[code, slot, release]: [u32; 3]| {
        let release = release - 398;
        let spare = (code + slot + release) % 4;
        [spread(code, 100, 7), spread(slot, 24, 5), spread(release, 82, 7), spare]
    };
    let backward = |[code, slot, release]: [u32; 3]| {
        [reversed(code, 7), reversed(slot, 5), reversed(release - 398, 7), 0]
    };
    let (mut spread, mut turned, mut spared) = (0, 0, 0);
    let (mut wide, mut narrow) = (0, 0);
    for _ in 0..40 {
        let rows = rows(&mut random);
        let plain = |[code, slot, release]: [u32; 3]| [code, slot, release, 0];
        assert_eq!(held(Shape::new(&[16, 16, 16], 16), &rows, plain), 16);
        wide += held(Shape::new(&[7, 5, 9], 16), &rows, plain) / 40;
        let biased = |[code, slot, release]: [u32; 3]| [code, slot, release - 398, 0];
        narrow += held(Shape::new(&[7, 5, 7], 16), &rows, biased) / 40;
        let alone = |row| [even(row)[0], even(row)[1], even(row)[2], 0];
        spread += u32::from(held(Shape::new(&[7, 5, 7], 16), &rows, alone) == 20_000);
        turned += u32::from(held(Shape::new(&[7, 5, 7], 16), &rows, backward) == 20_000);
        spared += u32::from(held(Shape::new(&[7, 5, 7, 2], 16), &rows, even) == 20_000);
    }
    println!("6 on the average after {wide} with 9 bits of release, {narrow} with 7");
    assert!((2500..3400).contains(&wide) && (9500..11_500).contains(&narrow));
    println!("of 40 fills {spread} hold spread, {turned} reversed, {spared} with the spare attribute");
    assert!((16..=36).contains(&spread) && (16..=36).contains(&turned) && spared >= 37);
}
