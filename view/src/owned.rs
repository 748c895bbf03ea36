//! A store that owns its memory.
use crate::ask::Answer;
use mdeh::{Range, Refusal, Shape, Store, MOST_PAGES, MOST_WORDS, STATE_WORDS};

/// The bytes of the most pages that a store has use for, of any capacity.
const FILE_BYTES: usize = MOST_PAGES * Shape::new(&[1], 16).page_bytes();

/// A store in memory of its own.
pub type Owned = Store<[u32; STATE_WORDS], Vec<u32>, Vec<u8>>;

/// A store without records in 4,096 words and so many page bytes.
pub fn fresh(shape: Shape, bytes: usize) -> Result<Owned, Refusal> {
    Store::fresh(shape, [0; STATE_WORDS], vec![0; MOST_WORDS], vec![0; bytes])
}

/// The store of a saved file's bytes in 4,096 words and 4,096 pages.
pub fn load(file: &[u8]) -> Result<Owned, Refusal> {
    Store::load(file, [0; STATE_WORDS], vec![0; MOST_WORDS], vec![0; FILE_BYTES])
}

/// What a store answers to a range.
pub fn answer(store: &Owned, range: Range) -> Result<Answer, Refusal> {
    let listing = store.range(range, &mut [])?;
    Ok(Answer { total: listing.total as usize, reads: listing.reads as usize })
}
