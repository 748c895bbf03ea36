//! Records carried from a gateway to the workshop: which display code came from which container slot under which image
//! release, and how often. The gateway saves its store and writes the bytes to the file that the argument names; the
//! workshop reads them, loads them into memory of its own, adds a record and asks for code 30. The library writes and
//! reads no file: that is the host's.
use mdeh::{file_bytes, Query, Refusal, Shape, Store, RECORD_BYTES, STATE_WORDS};
use std::error::Error;
use std::fs;
use std::path::Path;

/// Codes are below 2^7, slots below 2^5, releases below 2^9, none is signed; a page holds four records.
const SHAPE: Shape = Shape::new(&[7, 5, 9], 4);

/// Code, slot and release, and how often they came.
const SEEN: [([i32; 3], u32); 12] = [
    ([10, 9, 431], 2),
    ([12, 5, 431], 3),
    ([20, 1, 412], 96),
    ([20, 17, 479], 7),
    ([30, 2, 405], 6),
    ([30, 2, 412], 2),
    ([30, 5, 431], 14),
    ([30, 9, 398], 1),
    ([30, 9, 431], 3),
    ([31, 9, 431], 1),
    ([41, 17, 479], 4),
    ([77, 5, 398], 1),
];

/// One record more, for which the gateway has no room.
const MORE: ([i32; 3], u32) = ([30, 10, 431], 1);

fn main() -> Result<(), Box<dyn Error>> {
    let path = std::env::args_os().nth(1).ok_or("usage: carry FILE")?;
    gateway(path.as_ref())?;
    workshop(path.as_ref())
}

/// The gateway: a store in little memory, and its file.
fn gateway(path: &Path) -> Result<(), Box<dyn Error>> {
    let mut store = Store::fresh(SHAPE, [0; STATE_WORDS], [0; 128], [0; 5 * SHAPE.page_bytes()])?;
    for (key, count) in SEEN {
        store.insert(key, count)?;
    }
    println!("gateway: one record more: {}", told(store.insert(MORE.0, MORE.1)));
    let mut file = [0; file_bytes(SEEN.len())];
    let size = store.save(&mut file)?;
    fs::write(path, &file[..size])?;
    println!("gateway: saved {size} bytes");
    Ok(())
}

/// The workshop: the file in more memory, and a list of code 30.
fn workshop(path: &Path) -> Result<(), Box<dyn Error>> {
    let file = fs::read(path)?;
    let mut state = [0; STATE_WORDS];
    let mut directory = vec![0; 4096];
    let mut pages = vec![0; 100 * SHAPE.page_bytes()];
    // a file that was cut off is refused, and the memory left as it is
    let cut = Store::load(&file[..file.len() - 1], &mut state, &mut directory, &mut pages);
    println!("workshop: one byte less: {}", told(cut));
    let mut store = Store::load(&file, state, directory, pages)?;
    println!("workshop: loaded {} records", store.query(Query::all(), &mut [])?.total);
    println!("workshop: one record more: {}", told(store.insert(MORE.0, MORE.1)));
    let mut out = [0; SEEN.len() * RECORD_BYTES];
    for record in store.query(Query::all().given(0, 30), &mut out)? {
        let [_, slot, release, _] = record.values;
        println!("slot {slot}, release {release}, count {}", record.payload);
    }
    Ok(())
}

/// What a call answered, in words.
fn told<T>(answer: Result<T, Refusal>) -> String {
    answer.map_or_else(|refusal| refusal.to_string(), |_| "accepted".into())
}
