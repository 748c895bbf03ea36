//! What asks read, beside the store's own answers and lists scanned in full.
mod common;

use common::{asked_picture, gateway_file, random_store, GATEWAY, PAGES};
use mdeh::Shape;
use mdeh_tests::random::Random;
use mdeh_view::ask::Ask;
use mdeh_view::attribute::{Attribute, Spec};
use mdeh_view::owned::{self, Owned};
use mdeh_view::picture::Picture;

const SEED: u64 = 0x7669_6577_2d61_736b;

/// The leaves that are marked are as many as the store reads, all records that match lie in them, and they are those of
/// the list that is scanned in full.
fn compare(picture: &Picture, wanted: impl Fn(usize, i64) -> bool) {
    let asked = picture.asked.as_ref().expect("something is asked");
    let least = |j: usize| i64::from(*picture.shape.values(j).start());
    let mut counts = (0, 0);
    for (place, leaf) in picture.leaves.iter().enumerate() {
        let value = |values: [i32; 4], j: usize| i64::from(values[j]) - least(j);
        let matches = |values: [i32; 4]| (0..picture.attributes.len()).all(|j| wanted(j, value(values, j)));
        let matching = leaf.records.iter().filter(|record| matches(record.values)).count();
        match picture.read(place) {
            Some(told) => assert_eq!(told, matching, "leaf {}", leaf.bits),
            None => assert_eq!(matching, 0, "leaf {} is not read", leaf.bits),
        }
        counts.0 += usize::from(picture.read(place).is_some());
        counts.1 += matching;
    }
    assert_eq!(counts, (asked.answer.reads, asked.answer.total), "{}", asked.words);
}

/// A random interval of an attribute's values, as an ask by its name or its number.
fn random_ask(random: &mut Random, attribute: &Attribute, j: usize) -> (String, (i64, i64)) {
    let (least, greatest) = attribute.ends();
    let mut value = || least + random.below((greatest - least + 1) as usize) as i64;
    let (a, b) = (value(), value());
    let name = if random.below(2) == 0 { attribute.name.clone() } else { j.to_string() };
    match random.below(3) {
        0 => (format!("{name}={a}"), (a, a)),
        _ => (format!("{name}={}..{}", a.min(b), a.max(b)), (a.min(b), a.max(b))),
    }
}

/// Random asks of a store under names.
fn compare_asks(random: &mut Random, store: &Owned, shape: Shape, specs: &[&str]) {
    let attributes: Vec<Attribute> = (specs.iter().enumerate())
        .map(|(j, spec)| Spec::parse(spec).expect("a name").attribute(shape, j).expect("it fits"))
        .collect();
    for _ in 0..40 {
        let mut asks = Vec::new();
        let mut ends: Vec<Option<(i64, i64)>> = vec![None; specs.len()];
        for (j, attribute) in
            attributes.iter().enumerate().filter(|_| random.below(3) > 0).collect::<Vec<_>>()
        {
            let (ask, values) = random_ask(random, attribute, j);
            asks.push(ask);
            ends[j] = Some(values);
        }
        let asks: Vec<&str> = asks.iter().map(String::as_str).collect();
        let picture = asked_picture(store, specs, &asks);
        // by values: an encoding is wanted if it is that of a value in the interval
        let wanted = |j: usize, encoding: i64| {
            let values = attributes[j].values((encoding as u32, encoding as u32));
            let (value, _) = values.expect("each encoding is that of a value");
            ends[j].is_none_or(|(low, high)| (low..=high).contains(&value))
        };
        compare(&picture, wanted);
    }
}

#[test]
fn random_stores() {
    let mut random = Random::new(SEED);
    for (widths, capacity, keys) in
        [(&[9][..], 2, 200), (&[6, 7], 3, 400), (&[4, 6, 5], 4, 700), (&[4; 4], 2, 900)]
    {
        for signs in [0, 0b0101, 0b1111] {
            let shape = Shape { signs, ..Shape::new(widths, capacity) };
            let store = random_store(&mut random, shape, PAGES, keys);
            let specs = ["a", "b:from=-7", "c:from=1000", "d"];
            compare_asks(&mut random, &store, shape, &specs[..widths.len()]);
        }
    }
}

/// 20,000 rows of a gateway from their saved file, by values that are spread.
#[test]
fn gateway() {
    let mut random = Random::new(SEED + 1);
    let store = owned::load(&gateway_file()).expect("a saved file");
    compare_asks(&mut random, &store, Shape::new(&[7, 5, 7], 16), &GATEWAY);
    let picture = asked_picture(&store, &GATEWAY, &["code=30"]);
    compare(&picture, |j, encoding| j != 0 || encoding == 30 * 128 / 100);
    let asked = picture.asked.as_ref().expect("something is asked");
    assert_eq!((asked.words.as_str(), asked.answer.reads, asked.answer.total), ("code 30", 129, 171));
    assert_eq!(picture.records().count(), 18_999);
}

#[test]
fn texts() {
    let ask = |name: &str, low, high| Some(Ask { name: name.to_owned(), low, high });
    assert_eq!(Ask::parse("code=30"), ask("code", 30, 30));
    assert_eq!(Ask::parse("0=400..479"), ask("0", 400, 479));
    assert_eq!(Ask::parse("offset=-8..-1"), ask("offset", -8, -1));
    assert_eq!(Ask::parse("a=2..1"), ask("a", 2, 1));
    for text in ["", "a", "=1", "a=", "a=b", "a=1..", "a=..1", "a=1-2", "a==1", "a=1..2..3", "a=2147483648"] {
        assert_eq!(Ask::parse(text), None, "{text:?}");
    }
}
