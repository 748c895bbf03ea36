//! A gateway's records: which display code came from which container slot under which image release, and how often.
//! Fills a store, says how deep its keys lie, checks it, asks for code 30, then for its releases from 400 to 479, and
//! prints the slots and releases.
use mdeh::{Listing, Query, Range, Refusal, Shape, Store, RECORD_BYTES, STATE_WORDS};

/// Codes are below 2^7, slots below 2^5, releases below 2^9, none is signed; a page holds four records.
const SHAPE: Shape = Shape::new(&[7, 5, 9], 4);

/// Code, slot and release, and how often they came.
const SEEN: [([i32; 3], u32); 22] = [
    ([10, 1, 412], 1),
    ([10, 2, 412], 1),
    ([10, 5, 431], 1),
    ([10, 9, 431], 2),
    ([10, 17, 479], 1),
    ([12, 5, 431], 3),
    ([20, 1, 412], 96),
    ([20, 2, 412], 88),
    ([20, 5, 431], 41),
    ([20, 9, 431], 40),
    ([20, 17, 479], 7),
    ([30, 2, 405], 6),
    ([30, 2, 412], 2),
    ([30, 5, 431], 14),
    ([30, 9, 398], 1),
    ([30, 9, 431], 3),
    ([30, 17, 479], 1),
    ([31, 9, 431], 1),
    ([41, 2, 405], 2),
    ([41, 5, 431], 1),
    ([41, 17, 479], 4),
    ([77, 5, 398], 1),
];

fn main() -> Result<(), Refusal> {
    let (mut state, mut directory) = ([0; STATE_WORDS], [0; 1024]);
    let mut pages = [0; 24 * SHAPE.page_bytes()];
    let mut store = Store::fresh(SHAPE, &mut state, &mut directory, &mut pages)?;
    let mut deepest = 0;
    for (key, count) in SEEN {
        deepest = deepest.max(store.insert(key, count)?.depth);
    }
    // whoever sizes the gateway: near L, word 7 of the state, a longer directory is due
    println!("filled: depths up to {deepest} of {}", store.state()[7]);
    // people act on the list: check, then ask
    if !store.check()? {
        return Err(Refusal::Unsound);
    }
    let mut out = [0; 16 * RECORD_BYTES];
    show("code 30", store.query(Query::all().given(0, 30), &mut out)?);
    let releases = Range::all().within(0, 30..=30).within(2, 400..=479);
    show("code 30, releases 400 to 479", store.range(releases, &mut out)?);
    Ok(())
}

/// Prints what a list has of slots and releases.
fn show(asked: &str, found: Listing) {
    println!("{asked}: {} records, {} pages read", found.total, found.reads);
    for record in &found {
        let [_, slot, release, _] = record.values;
        println!("slot {slot}, release {release}, count {}", record.payload);
    }
    if !found.is_complete() {
        println!("and {} more", found.total - found.written);
    }
}
