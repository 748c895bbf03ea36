//! Stores for the tests.
#![allow(dead_code)] // each test file has use for some of them
use mdeh::{file_bytes, Shape};
use mdeh_tests::random::Random;
use mdeh_view::ask::{asked, Ask};
use mdeh_view::attribute::Spec;
use mdeh_view::owned::{self, Owned};
use mdeh_view::picture::Picture;
use mdeh_view::session::Session;

/// Widths, a page capacity and a number of keys: directories of depth 12, but for the second.
pub const STORES: [(&[u32], u32, usize); 5] =
    [(&[16], 1, 300), (&[8, 6], 8, 60), (&[16, 16], 16, 2000), (&[8, 6, 10], 8, 500), (&[4; 4], 1, 900)];

/// The bytes of 4,096 pages of any capacity.
pub const PAGES: usize = 4096 * 194;

/// The names and values of a gateway's records: display code, container slot, image release.
pub const GATEWAY: [&str; 3] = ["code:from=0,to=99", "slot:from=0,to=23", "release:from=398,to=479"];

/// The store that lines leave, each of which is accepted, with these marks of signed attributes.
pub fn store(signs: u32, lines: &str) -> Owned {
    let mut session = Session::signed(signs);
    for line in lines.lines() {
        assert_eq!(session.take(line.as_bytes()), Ok(()), "{line}");
    }
    session.store().expect("a `shape` was accepted")
}

/// What the store shows that lines leave, each of which is accepted.
pub fn picture(lines: &str) -> Picture {
    signed_picture(0, lines)
}

/// The same, with these marks of signed attributes.
pub fn signed_picture(signs: u32, lines: &str) -> Picture {
    Picture::of(&store(signs, lines))
}

/// What a store shows under names, with the pages marked that asks read.
pub fn asked_picture(store: &Owned, specs: &[&str], asks: &[&str]) -> Picture {
    let mut picture = Picture::of(store);
    let specs: Vec<Spec> = specs.iter().map(|spec| Spec::parse(spec).expect("a name")).collect();
    picture.name(&specs).expect("the names and values fit");
    let asks: Vec<Ask> = asks.iter().map(|ask| Ask::parse(ask).expect("an ask")).collect();
    picture.asked =
        Some(asked(&picture, &asks, |range| owned::answer(store, range)).expect("values of the store"));
    picture
}

/// The line of a shape.
pub fn shape_line(widths: &[u32], capacity: u32) -> String {
    let widths: Vec<String> = widths.iter().map(u32::to_string).collect();
    format!("shape {} {} {capacity}", widths.len(), widths.join(" "))
}

/// A store of random keys as far as it takes them, in so many page bytes; small values are likelier.
pub fn random_store(random: &mut Random, shape: Shape, bytes: usize, keys: usize) -> Owned {
    let mut store = owned::fresh(shape, bytes).expect("the shape is within its bounds");
    for _ in 0..keys {
        let width = |j: usize| if j < shape.attributes as usize { shape.widths[j] } else { 0 };
        let key: [i32; 4] = std::array::from_fn(|j| shape.values(j).start() + random.short(width(j)) as i32);
        // a key that is stored already, or has no room, is passed over
        let _ = store.insert(key, 7);
    }
    store
}

/// A store of up to so many keys of evenly likely values, each inserted if there is room.
pub fn even_store(random: &mut Random, widths: &[u32], keys: usize) -> Owned {
    let mut store = owned::fresh(Shape::new(widths, 16), PAGES).expect("the shape is within its bounds");
    for _ in 0..keys {
        let value = |j: usize| widths.get(j).map_or(0, |&width| random.below(1 << width) as i32);
        let key: [i32; 4] = [0, 1, 2, 3].map(value);
        let _ = store.insert(key, 7);
    }
    store
}

/// What the store shows that random keys leave in the memory that `stock` lends.
pub fn random_picture(random: &mut Random, (widths, capacity, keys): (&[u32], u32, usize)) -> Picture {
    Picture::of(&random_store(random, Shape::new(widths, capacity), 32768, keys))
}

/// The bytes of a store's saved file.
pub fn saved(store: &Owned) -> Vec<u8> {
    let mut file = vec![0; file_bytes(65536)];
    let size = store.save(&mut file).expect("a sound store");
    file.truncate(size);
    file
}

/// The saved file of 20,000 random rows of a gateway, whose values are spread; each row is stored, or was already.
pub fn gateway_file() -> Vec<u8> {
    let mut random = Random::new(1);
    let mut store = owned::fresh(Shape::new(&[7, 5, 7], 16), PAGES).expect("the shape is within its bounds");
    for payload in 1..=20_000 {
        let mut spread = |count: u64, width: u32| (random.between(0, count - 1) << width) / count;
        let key = [spread(100, 7), spread(24, 5), spread(82, 7)].map(|value| value as i32);
        match store.insert(key, payload) {
            Ok(_) | Err(mdeh::Refusal::Stored) => (),
            Err(refusal) => panic!("{key:?}: {refusal}"),
        }
    }
    saved(&store)
}
