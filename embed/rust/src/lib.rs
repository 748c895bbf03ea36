//! A multidimensional extendible hash store in memory of its host, behind safe types.
//!
//! Records have a key of one to four values and a payload of 32 bits. A [`Query`] gives some of the values and leaves
//! the others open, a [`Range`] gives intervals of them; both read only the pages whose records can match. The store
//! needs no heap and never panics; each call is answered as its proved contract says, whatever the memory holds. This
//! crate adds types and no copies.
//!
//! ```
//! use mdeh::{Query, Refusal, Shape, Store, STATE_WORDS};
//!
//! const SHAPE: Shape = Shape::new(&[2, 2], 2); // two attributes of two bits each, two records a page
//! let mut store = Store::fresh(SHAPE, [0; STATE_WORDS], [0; 8], [0; 4 * SHAPE.page_bytes()])?;
//!
//! store.insert([0, 0], 10)?;
//! store.insert([2, 0], 11)?;
//! store.insert([3, 1], 12)?;
//! store.insert([2, 1], 13)?;
//! assert_eq!(store.insert([2, 1], 14), Err(Refusal::Stored));
//! assert_eq!(store.lookup([3, 1])?.payload, 12);
//!
//! let mut out = [0; 256 * mdeh::RECORD_BYTES];
//! let listing = store.query(Query::all().given(1, 1), &mut out)?;
//! let found: Vec<_> = listing.records().map(|record| (record.values, record.payload)).collect();
//! assert_eq!(found, [([2, 1, 0, 0], 13), ([3, 1, 0, 0], 12)]);
//! assert_eq!((listing.total, listing.reads), (2, 3));
//! # Ok::<(), Refusal>(())
//! ```
//!
//! # Memory
//!
//! A store is three parts: the [`STATE_WORDS`] words of its state, a directory of words, and the bytes of its pages, of
//! which each has 2 + 12b with page capacity b ([`Shape::page_bytes`]). A [`Store`] has use for up to [`MOST_WORDS`]
//! words and [`MOST_PAGES`] pages. Fewer limit how far it can grow, more are left alone. The memory is of any kind:
//!
//! - owned: arrays, `Vec`s or boxed slices. The store is one value, which may be a field of another and be moved.
//! - borrowed: `&mut` of these. The store is in the memory of the host, and its words are the store's own: when the
//!   [`Store`] is dropped, nothing is lost, and [`Store::open`] takes the same three up again.
//! - shared: `&` of these. The store is read-only; it has no calls that write.
//! - mapped: any type that shows its bytes by [`AsRef`], and by [`AsMut`] if they may be written. [`Words`] shows bytes
//!   as words, for the state and the directory. One mapping may be divided, or each part have its own.
//!
//! Hand over all three parts or lend all three. An array that is handed over is a copy: beside a lent directory and
//! lent pages, the host's own variable would be an older state. [`Store::into_parts`] gives the parts back.
//!
//! To keep a store, keep all three parts as they are. The layouts are in `embed/mdeh.h`. A crash in mid-change leaves
//! some of its writes in a mapped store: it may be unsound, which [`Store::check`] tells, or sound and without a record,
//! which nothing tells. So a mapping is not the only copy: save a file beside the last one, sync it and rename it; a
//! start loads the file.
//!
//! ```
//! use mdeh::{Refusal, Room, Shape, Store, STATE_WORDS};
//!
//! const SHAPE: Shape = Shape::new(&[7, 5, 7], 16);
//!
//! /// A gateway that owns its store.
//! struct Gateway {
//!     events: Store<[u32; STATE_WORDS], Vec<u32>, Vec<u8>>,
//! }
//!
//! impl Gateway {
//!     fn new(records: u32) -> Result<Gateway, Refusal> {
//!         let Room { words, bytes, .. } = SHAPE.room(records);
//!         Ok(Gateway { events: Store::fresh(SHAPE, [0; STATE_WORDS], vec![0; words], vec![0; bytes])? })
//!     }
//! }
//!
//! let mut gateway = Gateway::new(1000)?;
//! gateway.events.insert([30, 2, 14], 7)?;
//! let (state, directory, pages) = gateway.events.into_parts(); // to be kept
//! assert_eq!(Store::open(&state, &directory, &pages).lookup([30, 2, 14])?.payload, 7);
//! # Ok::<(), Refusal>(())
//! ```
//!
//! # Sizing
//!
//! A leaf holds the keys that agree in their first split bits: the highest bit of each value in turn, then the next of
//! each. With more than b it is divided by one bit more, down to depth L, the smallest of 12, the sum W of the widths
//! and the base-2 logarithm of the directory's length. So a store takes many records if the highest bits of their
//! values vary. [`Shape::room`] says how many words and bytes n records need, and whether they hold n, for keys that
//! are drawn at random. Certain, whatever the keys:
//!
//! - A store uses at most 2^L pages: with [`MOST_PAGES`] of them [`Refusal::Pages`] (7) never comes. Random keys use
//!   n / (0.68 b) on the average.
//! - [`Refusal::Depth`] (6) never comes where 2^(W-L) is at most b: so with W up to 16, b = 16 and 4,096 words.
//!
//! To make the highest bits vary:
//!
//! 1. Take the least widths: the first 2^w that is not below the number of values. In 16 bits, codes from 0 to 99 leave
//!    nine bits at 0.
//! 2. Take off a bias: releases from 398 to 479 are 0 to 81, 7 bits instead of 9. Sparse values become their ranks in a
//!    sorted list.
//! 3. [`spread`] ranks over the width. Order is kept, so that ranges still work; [`rank`] takes the value back.
//! 4. Where an attribute is asked by equality and not by ranges, and its values cluster or their ends are not known,
//!    store the value with its bits [`reversed`].
//! 5. Mark signed values ([`Shape::signed`]); they need no bias.
//! 6. If fewer than four attributes are used and 6 still comes, add a spare one of two bits, the last: the sum of the
//!    ranks modulo 4. No query gives it. It evens out the cells that the others leave uneven. Not where all values are
//!    reversed: their first split bits give it, and it takes the place of others.
//!
//! Of 20,000 random gateway rows (codes 0 to 99, slots 0 to 23, releases 398 to 479; some 19,000 distinct keys), b = 16
//! and 4,096 words:
//!
//! | widths | values | 6 comes |
//! |---|---|---|
//! | 16, 16, 16 | plain | at the 17th record |
//! | 7, 5, 9 | plain | after 2,952 records (the median) |
//! | 7, 5, 7 | 398 taken off | after 10,490 records (the median) |
//! | 7, 5, 7 | spread, or bits reversed | in 35 of 100 fills |
//! | 7, 5, 7, 2 | spread, and the spare attribute | in 14 of 1,000 fills |
//! | 7, 4, 7 | spread, even and odd slots in two stores (slot / 2: 12 values) | in none of 5,000 fills |
//!
//! On 6: the steps above, a capacity of 16, 4,096 words; then several stores, by an attribute or by a digest of the
//! key. On 7: more pages, or a larger capacity. In both cases save and load into longer memory ([`Store::load`]; the
//! shape stays), or insert the records again under another shape.
//!
//! ```
//! use mdeh::{rank, spread, Range, Refusal, Room, Shape, Store, STATE_WORDS};
//!
//! /// Code, slot, release, and the spare attribute.
//! const SHAPE: Shape = Shape::new(&[7, 5, 7, 2], 16);
//! /// How many codes, slots and releases there are, and the first release.
//! const COUNTS: [u32; 3] = [100, 24, 82];
//! const FIRST: u32 = 398;
//!
//! /// The key of a code, a slot and a release.
//! fn key(code: u32, slot: u32, release: u32) -> [i32; 4] {
//!     let ranks = [code, slot, release - FIRST];
//!     let spare = ranks.iter().sum::<u32>() % 4;
//!     [value(0, ranks[0]), value(1, ranks[1]), value(2, ranks[2]), spare as i32]
//! }
//!
//! /// The value of a rank of an attribute.
//! fn value(attribute: usize, rank: u32) -> i32 {
//!     spread(rank, COUNTS[attribute], SHAPE.widths[attribute]) as i32
//! }
//!
//! let Room { words, bytes, .. } = SHAPE.room(20_000);
//! let mut store = Store::fresh(SHAPE, [0; STATE_WORDS], vec![0; words], vec![0; bytes])?;
//! store.insert(key(30, 2, 412), 7)?;
//! store.insert(key(30, 9, 398), 8)?;
//!
//! // code 30, releases 400 to 479
//! let wanted = Range::all().within(0, value(0, 30)..=value(0, 30)).within(2, value(2, 2)..=value(2, 81));
//! let mut out = [0; 100 * mdeh::RECORD_BYTES];
//! for record in store.range(wanted, &mut out)? {
//!     let [code, slot, release] =
//!         [0, 1, 2].map(|j| rank(record.values[j] as u32, COUNTS[j], SHAPE.widths[j]));
//!     assert_eq!((code, slot, release + FIRST, record.payload), (30, 2, 412, 7));
//! }
//! # assert_eq!(store.range(wanted, &mut out)?.total, 1);
//! # Ok::<(), Refusal>(())
//! ```
//!
//! # Depths
//!
//! Every key falls in one leaf of a store, stored or not: that of all keys with its first x split bits, x being the
//! leaf's depth. A leaf holds at most b records; with one more it is divided. [`Store::insert`] and [`Store::delete`]
//! return the depth of the key's leaf afterwards, once leaves are divided or joined, [`Store::lookup`] that of the
//! key's leaf, and [`Refusal::Absent`] carries that of the leaf in which the absent key falls, with records or without.
//! No other refusal carries a depth.
//!
//! ```
//! use mdeh::{Refusal, Shape, Store, STATE_WORDS};
//!
//! let mut store = Store::fresh(Shape::new(&[2, 2], 2), [0; STATE_WORDS], [0; 8], [0; 4 * 26])?;
//! assert_eq!(store.lookup([2, 1]), Err(Refusal::Absent { depth: 0 }));
//!
//! // split bits 0000, 1000, 1011, 1001
//! assert_eq!(store.insert([0, 0], 10)?.depth, 0);
//! assert_eq!(store.insert([2, 0], 11)?.depth, 0);
//! assert_eq!(store.insert([3, 1], 12)?.depth, 1); // leaves 0 and 1
//! assert_eq!(store.insert([2, 1], 13)?.depth, 3); // leaves 0, 100, 101 and 11, which is empty
//! assert_eq!(store.lookup([0, 0])?.depth, 1);
//! assert_eq!(store.lookup([3, 3]), Err(Refusal::Absent { depth: 2 })); // 1111
//!
//! assert_eq!(store.delete([2, 1])?.depth, 1); // leaves 0 and 1
//! # Ok::<(), Refusal>(())
//! ```
//!
//! Depths tell how near 6 is. None is above L (word 7 of [`Store::state`]). A full leaf of depth L cannot be divided: an
//! insert into it is refused with [`Refusal::Depth`], so depths near L mean that this is near. It comes at lesser
//! depths too, where keys agree in many of their first split bits.
//!
//! # Files
//!
//! [`Store::save`] writes the records of a store as the bytes of a file, and [`Store::load`] makes a store of these
//! bytes, in any slices: to carry records elsewhere, or to let a store grow that has no room any more. To write and read
//! the bytes is the host's. A file has the records in split order, 12 bytes each, 8 bytes of shape and 16 of trailer
//! ([`file_bytes`]), the same on every machine. Two sound stores of one shape save equal bytes exactly when they hold
//! equal sets of records, whatever their slices and the order of their calls.
//!
//! ```
//! use mdeh::{file_bytes, Refusal, Shape, Store, STATE_WORDS};
//!
//! const SHAPE: Shape = Shape::new(&[7, 5, 9], 2);
//! let mut store = Store::fresh(SHAPE, [0; STATE_WORDS], [0; 16], [0; 2 * SHAPE.page_bytes()])?;
//! for (slot, payload) in [(2, 6), (5, 14), (17, 1)] {
//!     store.insert([30, slot, 431], payload)?;
//! }
//! assert_eq!(store.insert([100, 9, 398], 1), Err(Refusal::Pages)); // two pages are full of code 30
//!
//! let mut file = [0u8; file_bytes(3)];
//! assert_eq!(store.save(&mut file)?, file.len());
//! assert_eq!(file[36..44], [3, 7, 5, 9, 0, 2, 0, 0]); // the shape
//! assert_eq!(file[44..48], *b"MDEH");
//!
//! // more memory, the same records
//! let mut store = Store::load(&file, [0; STATE_WORDS], vec![0; 64], vec![0; 8 * SHAPE.page_bytes()])?;
//! store.insert([100, 9, 398], 1)?;
//! assert_eq!(store.lookup([30, 5, 431])?.payload, 14);
//!
//! assert_eq!(Store::load(&file[1..], [0; STATE_WORDS], [0; 64], [0; 400]).unwrap_err(), Refusal::File);
//! # Ok::<(), Refusal>(())
//! ```
//!
//! # Signed attributes
//!
//! A [`Shape`] may mark attributes as signed. A marked attribute of width w has the values from -2^(w-1) to 2^(w-1) - 1,
//! any other those from 0 to 2^w - 1 ([`Shape::values`]); a number outside is refused with [`Refusal::Value`], never cut
//! off. The encoding of a value is the value plus 2^(w-1) where it is marked, otherwise the value. Split order, leaves,
//! queries and ranges go by encodings: that of -1 comes straight before that of 0. Pages and outputs hold the value itself, in
//! 16-bit two's complement. Indices and addresses have no sign.
//!
//! ```
//! use mdeh::{Range, Refusal, Shape, Store, STATE_WORDS};
//!
//! const SHAPE: Shape = Shape::new(&[6, 10], 4).signed(1); // a drive's number, its position offset
//! let mut store = Store::fresh(SHAPE, [0; STATE_WORDS], [0; 16], [0; 8 * SHAPE.page_bytes()])?;
//! assert_eq!(store.shape().values(1), -512..=511);
//!
//! for (offset, payload) in [(511, 1), (0, 2), (-1, 3), (-512, 4)] {
//!     store.insert([5, offset], payload)?;
//! }
//! assert_eq!(store.insert([5, 512], 5), Err(Refusal::Value));
//! assert_eq!(store.insert([5, -513], 5), Err(Refusal::Value));
//! assert_eq!(store.insert([-1, 0], 5), Err(Refusal::Value)); // a drive's number has no sign
//! assert_eq!(store.lookup([5, -512])?.payload, 4);
//!
//! let mut out = [0; 4 * mdeh::RECORD_BYTES];
//! let listing = store.query([Some(5)], &mut out)?;
//! let offsets: Vec<i32> = listing.records().map(|record| record.values[1]).collect();
//! assert_eq!(offsets, [-512, -1, 0, 511]); // in split order, each as it was inserted
//!
//! let about_0 = store.range(Range::all().within(1, -8..8), &mut out)?;
//! assert_eq!(about_0.records().map(|record| record.payload).collect::<Vec<_>>(), [3, 2]);
//! store.delete([5, -512])?;
//! assert_eq!(store.query([None, Some(-512)], &mut out)?.total, 0);
//! # assert_eq!(store.query([None, Some(-513)], &mut out).unwrap_err(), Refusal::Value);
//! # assert_eq!(store.check(), Ok(true));
//! # Ok::<(), Refusal>(())
//! ```
//!
//! # Payloads
//!
//! Hosts read a payload of 0 as "no log line", so [`Store::insert`] refuses it with [`Refusal::Payload`]: payloads
//! start at 1. A store that an earlier version filled may hold payloads of 0. It stays sound, and they are looked up,
//! listed, deleted, saved and loaded as others are; to be inserted into another store, such a record needs another
//! payload.
//!
//! ```
//! # use mdeh::{Query, Refusal, Shape, Store, STATE_WORDS};
//! # let mut store = Store::fresh(Shape::new(&[4, 4], 1), [0; STATE_WORDS], [0; 1], [0; 14])?;
//! # store.insert([3, 9], 7)?;
//! # let (state, directory, mut pages) = store.into_parts();
//! # pages[10..].fill(0); // the payload of the only record
//! # let mut store = Store::open(state, directory, pages);
//! // a store that holds key (3, 9) with a payload of 0
//! assert_eq!(store.check(), Ok(true));
//! assert_eq!(store.lookup([3, 9])?.payload, 0);
//! assert_eq!(store.query(Query::all(), &mut [])?.total, 1);
//! assert_eq!(store.insert([3, 9], 0), Err(Refusal::Payload));
//! store.delete([3, 9])?;
//! # assert_eq!((store.check(), store.lookup([3, 9])), (Ok(true), Err(Refusal::Absent { depth: 0 })));
//! # Ok::<(), Refusal>(())
//! ```
//!
//! # Check, then ask
//!
//! A call reads a part of the store, and tests of it the words and each page's count, first and last record: damage is
//! then [`Refusal::Unsound`]. On damaged memory a list may still lack records or show wrong ones. Before people act on a
//! list, ask [`Store::check`], which reads the whole store: some 15 ns a record, a third of a millisecond for 20,000.
//! Where it says no, or a call gives `Unsound`, the memory was damaged: do not act on it; load the last saved file, or
//! make a fresh store, and insert the event records again.
//!
//! ```
//! use mdeh::{Listing, Query, Refusal, SharedStore};
//!
//! /// A list that people may act on.
//! fn checked<'o>(store: SharedStore, query: Query, out: &'o mut [u8]) -> Result<Listing<'o>, Refusal> {
//!     match store.check()? {
//!         true => store.query(query, out),
//!         false => Err(Refusal::Unsound),
//!     }
//! }
//! # use mdeh::{Shape, Store, STATE_WORDS};
//! # let mut store = Store::fresh(Shape::new(&[4, 4], 1), [0; STATE_WORDS], [0; 1], [0; 14])?;
//! # store.insert([3, 9], 7)?;
//! # assert_eq!(checked(store.shared(), Query::all(), &mut [0; 12])?.total, 1);
//! # let (state, mut directory, pages) = store.into_parts();
//! # directory[0] = 0; // nothing that a query can see
//! # let store = Store::open(&state[..], &directory[..], &pages[..]);
//! # assert_eq!(store.query(Query::all(), &mut [])?.total, 0);
//! # assert_eq!(checked(store, Query::all(), &mut [0; 12]).unwrap_err(), Refusal::Unsound);
//! # Ok::<(), Refusal>(())
//! ```
//!
//! # Refusals
//!
//! A [`Refusal`] is an [`Error`](core::error::Error) that says its reason in words, so that `?` hands it on.
//!
//! ```
//! use mdeh::{Shape, Store, STATE_WORDS};
//! use std::error::Error;
//!
//! fn host() -> Result<(), Box<dyn Error>> {
//!     let mut store = Store::fresh(Shape::new(&[4, 4], 1), [0; STATE_WORDS], [0; 1], [0; 14])?;
//!     store.insert(["3".parse()?, "16".parse()?], 7)?;
//!     Ok(())
//! }
//!
//! let reason = host().unwrap_err().to_string();
//! assert_eq!(reason, "a value, index or address is outside its bounds, or an unused value is not 0");
//! ```
//!
//! # Linking
//!
//! `make` in the repository writes `libmdeh.a`, the proved library. It is code for x86-64-v2 and needs nothing
//! but `memcpy`, `memmove` and `memset`. The build script looks for it in the folder that the environment variable
//! `MDEH_LIB_DIR` names, which has to have it, then beside this crate's `Cargo.toml`, then in the repository's
//! `target/staticlib`. Without the library `cargo check` and `cargo doc` work, and the build script warns; a build that
//! links fails. After `make install` the folder is `PREFIX/lib`.
#![no_std]
#![deny(missing_docs, unsafe_code)]

mod answer;
mod file;
mod key;
mod query;
mod range;
#[allow(unsafe_code)]
pub mod raw;
mod record;
mod refusal;
mod shape;
mod sizing;
mod store;
#[allow(unsafe_code)]
mod words;

pub use answer::{Deleted, Found, Inserted, Listing};
pub use file::file_bytes;
pub use key::{Index, Key};
pub use query::Query;
pub use range::Range;
pub use record::{Record, Records, RECORD_BYTES};
pub use refusal::Refusal;
pub use shape::Shape;
pub use sizing::{rank, reversed, spread, Room, NO_VALUE};
pub use store::{LentStore, SharedStore, Store, MOST_PAGES, MOST_RECORDS, MOST_WORDS, STATE_WORDS};
pub use words::Words;

/// The address of an index vector in the directory of a shape.
///
/// The directory grows by doubling and moves no word: an index vector has one address at every size, whichever
/// attributes are signed. Refused with [`Refusal::Shape`], [`Refusal::Width`] or [`Refusal::Capacity`], or with
/// [`Refusal::Value`] for an index past its width.
///
/// ```
/// use mdeh::{address, Refusal, Shape};
///
/// let shape = Shape::new(&[1, 3, 2], 1);
/// assert_eq!(address(shape, [1, 2, 1]), Ok(11));
/// assert_eq!(address(shape, [0, 7, 3]), Ok(59));
/// assert_eq!(address(shape.signed(1), [0, 7, 3]), Ok(59));
/// assert_eq!(address(shape, [2, 0, 0]), Err(Refusal::Value));
/// ```
#[inline]
pub fn address(shape: Shape, index: impl Into<Index>) -> Result<u64, Refusal> {
    raw::address(shape, index.into().into()).map_err(Refusal::of)
}

/// The index vector at an address, 0 for an unused attribute: the inverse of [`address`].
///
/// Refused with [`Refusal::Shape`], [`Refusal::Width`] or [`Refusal::Capacity`], or with [`Refusal::Value`] for an
/// address of 2^W or more, W being the sum of the widths.
///
/// ```
/// use mdeh::{index, Refusal, Shape};
///
/// let shape = Shape::new(&[2, 2], 1);
/// assert_eq!(index(shape, 7), Ok([3, 1, 0, 0]));
/// assert_eq!(index(shape, 8), Ok([0, 2, 0, 0]));
/// assert_eq!(index(shape, 16), Err(Refusal::Value));
/// ```
#[inline]
pub fn index(shape: Shape, address: u64) -> Result<[u64; 4], Refusal> {
    raw::index(shape, address).map_err(Refusal::of)
}
