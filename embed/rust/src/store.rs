//! A store over the memory that it holds.
use crate::answer::{Deleted, Found, Inserted, Listing};
use crate::key::Key;
use crate::query::Query;
use crate::range::Range;
use crate::raw;
use crate::refusal::Refusal;
use crate::shape::Shape;
use core::fmt::{self, Debug, Formatter};

pub use crate::raw::STATE_WORDS;

/// The most directory words that a store has use for.
pub const MOST_WORDS: usize = 4096;

/// The most pages that a store has use for.
pub const MOST_PAGES: usize = 4096;

/// The most records that a store holds.
pub const MOST_RECORDS: usize = 65_536;

/// A store: its state, its directory and its pages, each in memory that it owns or borrows.
///
/// The words of the state are in `S`, those of the directory in `D`, the bytes of the pages in `P`: arrays, `Vec`s,
/// boxed slices, slices that are borrowed, or a mapping ([`Words`](crate::Words) shows its bytes as words). All of a
/// store is in these three; the type adds nothing to them. Calls that read need [`AsRef`] of the memory, calls that
/// write need [`AsMut`]: a store over shared memory is read-only, and the compiler says so.
///
/// Calls that read take `&self` and write nothing in the store, so threads may share it where its memory is [`Sync`].
/// Refusals are listed in the order in which they are looked for; a refused call has changed nothing.
/// [`Refusal::Unsound`] is never given on a store that [`Store::check`] finds sound; [`Store::fresh`] and
/// [`Store::load`] make a sound store, and every call leaves it sound. A store over fewer than [`STATE_WORDS`] words of
/// state refuses every call with [`Refusal::Shape`].
///
/// A clone of owned memory is a store of its own. A store is never copied implicitly: the copy would miss what is done to
/// the other.
#[derive(Clone)]
pub struct Store<S, D, P> {
    state: S,
    directory: D,
    pages: P,
}

/// A store that borrows its memory, and may write it.
pub type LentStore<'m> = Store<&'m mut [u32], &'m mut [u32], &'m mut [u8]>;

/// A store that borrows its memory and only reads it.
pub type SharedStore<'m> = Store<&'m [u32], &'m [u32], &'m [u8]>;

impl<S, D, P> Store<S, D, P> {
    /// The memory of the store: state, directory and pages. [`Store::open`] takes it up again.
    #[inline]
    pub fn into_parts(self) -> (S, D, P) {
        (self.state, self.directory, self.pages)
    }
}

/// The calls that make a store or change it.
impl<S: AsMut<[u32]>, D: AsMut<[u32]>, P: AsMut<[u8]>> Store<S, D, P> {
    /// Makes a store without records in this memory, whatever it held before.
    ///
    /// How far the store can grow is fixed by the memory: [`Shape::room`] says how much to take. Refused with
    /// [`Refusal::Shape`], [`Refusal::Width`] or [`Refusal::Capacity`], or with [`Refusal::Memory`] where there are
    /// fewer words than a state has, no directory word or no whole page. Memory that was handed over is dropped then,
    /// memory that was lent is as it was.
    ///
    /// ```
    /// use mdeh::{Shape, Store, STATE_WORDS};
    ///
    /// const SHAPE: Shape = Shape::new(&[7, 5], 16);
    /// let room = SHAPE.room(500);
    /// let owned = Store::fresh(SHAPE, [0; STATE_WORDS], vec![0; room.words], vec![0; room.bytes])?;
    ///
    /// let (mut state, mut directory, mut pages) = ([0; STATE_WORDS], [0; 256], [0; 10_000]);
    /// let borrowed = Store::fresh(SHAPE, &mut state, &mut directory, &mut pages)?;
    /// assert_eq!(owned.shape(), borrowed.shape());
    /// # Ok::<(), mdeh::Refusal>(())
    /// ```
    #[inline]
    pub fn fresh(
        shape: Shape,
        mut state: S,
        mut directory: D,
        mut pages: P,
    ) -> Result<Store<S, D, P>, Refusal> {
        raw::fresh(shape, state.as_mut(), directory.as_mut(), pages.as_mut()).map_err(Refusal::of)?;
        Ok(Store { state, directory, pages })
    }

    /// Makes a store of a file's shape and records in this memory, whatever it held before. All bytes are the file's.
    ///
    /// How far the store can grow is fixed by the memory, as of [`Store::fresh`]. Payloads are not looked at: one of 0
    /// loads. Refused with [`Refusal::File`], [`Refusal::Shape`], [`Refusal::Width`], [`Refusal::Capacity`],
    /// [`Refusal::Content`] or [`Refusal::Memory`], then with [`Refusal::Depth`] or [`Refusal::Pages`] at the first
    /// record that an insert into a store of those before it would refuse so. Memory that was handed over is dropped
    /// then, memory that was lent is as it was. A file has no sum: a changed payload is not told.
    ///
    /// ```
    /// use mdeh::{file_bytes, Refusal, Shape, Store, STATE_WORDS};
    ///
    /// let mut store = Store::fresh(Shape::new(&[2, 2], 2), [0; STATE_WORDS], [0; 8], [0; 60])?;
    /// store.insert([2, 1], 13)?;
    /// store.insert([3, 1], 12)?;
    /// let mut file = [0; file_bytes(2)];
    /// store.save(&mut file)?;
    ///
    /// let (mut state, mut directory, mut pages) = ([0; STATE_WORDS], [0; 4096], [0; 1000]);
    /// let loaded = Store::load(&file, &mut state, &mut directory, &mut pages)?;
    /// assert_eq!((loaded.shape(), loaded.check()), (store.shape(), Ok(true)));
    /// assert_eq!(loaded.lookup([2, 1])?.payload, 13);
    ///
    /// let mut load = |file: &[u8]| Store::load(file, &mut state, &mut directory, &mut pages).err();
    /// file[0] = 3; // the first key is (3, 1) now, as the second
    /// assert_eq!(load(&file), Some(Refusal::Content));
    /// file[26] = 0; // the width of attribute 1
    /// assert_eq!(load(&file), Some(Refusal::Width { attribute: 1 }));
    /// # Ok::<(), Refusal>(())
    /// ```
    #[inline]
    pub fn load(
        file: &[u8],
        mut state: S,
        mut directory: D,
        mut pages: P,
    ) -> Result<Store<S, D, P>, Refusal> {
        raw::load(file, state.as_mut(), directory.as_mut(), pages.as_mut()).map_err(Refusal::of)?;
        Ok(Store { state, directory, pages })
    }

    /// Adds a record, whose payload is not 0, and returns how deep it lies then.
    ///
    /// Refused with [`Refusal::Shape`], [`Refusal::Width`], [`Refusal::Capacity`], [`Refusal::Memory`],
    /// [`Refusal::Value`], [`Refusal::Payload`], [`Refusal::Stored`], [`Refusal::Depth`], [`Refusal::Pages`] or
    /// [`Refusal::Unsound`]. A payload of 0 is refused whatever the directory and the pages hold, also where the key is
    /// stored already or has no room.
    ///
    /// ```
    /// use mdeh::{Refusal, Shape, Store, STATE_WORDS};
    ///
    /// let mut store = Store::fresh(Shape::new(&[2, 2], 2), [0; STATE_WORDS], [0; 8], [0; 60])?;
    /// assert_eq!(store.insert([2, 1], 0), Err(Refusal::Payload));
    /// assert_eq!(store.insert([2, 1], 1)?.depth, 0); // payloads start at 1
    ///
    /// assert_eq!(store.insert([2, 4], 0), Err(Refusal::Value));
    /// assert_eq!(store.insert([2, 1], 0), Err(Refusal::Payload));
    /// assert_eq!(store.insert([2, 1], 2), Err(Refusal::Stored));
    /// # Ok::<(), Refusal>(())
    /// ```
    #[inline]
    pub fn insert(&mut self, key: impl Into<Key>, payload: u32) -> Result<Inserted, Refusal> {
        let (state, directory, pages) = self.slices_mut();
        raw::insert(state, directory, pages, key.into().values, payload)
            .map(|depth| Inserted { depth })
            .map_err(Refusal::of)
    }

    /// Removes the record of a key, and returns the depth of the leaf in which the key falls then.
    ///
    /// Refused with [`Refusal::Shape`], [`Refusal::Width`], [`Refusal::Capacity`], [`Refusal::Memory`],
    /// [`Refusal::Value`], [`Refusal::Absent`] or [`Refusal::Unsound`].
    ///
    /// ```
    /// use mdeh::{Refusal, Shape, Store, STATE_WORDS};
    ///
    /// let mut store = Store::fresh(Shape::new(&[2, 2], 1), [0; STATE_WORDS], [0; 16], [0; 60])?;
    /// store.insert([2, 0], 11)?;
    /// assert_eq!(store.insert([2, 1], 13)?.depth, 4); // two keys that differ in their last split bit
    ///
    /// assert_eq!(store.delete([2, 1])?.depth, 0); // one key, one leaf
    /// assert_eq!(store.delete([2, 1]), Err(Refusal::Absent { depth: 0 }));
    /// # Ok::<(), Refusal>(())
    /// ```
    #[inline]
    pub fn delete(&mut self, key: impl Into<Key>) -> Result<Deleted, Refusal> {
        let (state, directory, pages) = self.slices_mut();
        raw::delete(state, directory, pages, key.into().values)
            .map(|depth| Deleted { depth })
            .map_err(Refusal::of)
    }

    /// The same store over borrowed memory, for code that is written for one type of store.
    #[inline]
    pub fn lent(&mut self) -> LentStore<'_> {
        let (state, directory, pages) = self.slices_mut();
        Store { state, directory, pages }
    }

    /// The three slices, to be written.
    #[inline]
    fn slices_mut(&mut self) -> (&mut [u32], &mut [u32], &mut [u8]) {
        (self.state.as_mut(), self.directory.as_mut(), self.pages.as_mut())
    }
}

/// The calls that read.
impl<S: AsRef<[u32]>, D: AsRef<[u32]>, P: AsRef<[u8]>> Store<S, D, P> {
    /// Takes up a store that is in this memory: its state, and its directory and pages, which may be longer than
    /// before. Over shared memory the store is read-only.
    ///
    /// Nothing is copied, tested or trusted: every call stays within the memory and ends, whatever it holds. Ask
    /// [`Store::check`] whether it is a sound store. A state that an earlier version kept has no marks of signed
    /// attributes and one word less: a word of 0 behind it makes it a state.
    ///
    /// ```
    /// use mdeh::{Shape, Store, STATE_WORDS};
    ///
    /// let (mut state, mut directory, mut pages) = ([0; STATE_WORDS], [0; 8], [0; 60]);
    /// let mut store = Store::fresh(Shape::new(&[2, 2], 2), &mut state, &mut directory, &mut pages)?;
    /// store.insert([2, 1], 13)?;
    ///
    /// let mut store = Store::open(&mut state, &mut directory, &mut pages);
    /// store.insert([3, 1], 12)?;
    ///
    /// let store = Store::open(&state, &directory, &pages); // read-only
    /// assert_eq!(store.check(), Ok(true));
    /// assert_eq!(store.lookup([2, 1])?.payload, 13);
    ///
    /// directory[0] = 99; // a page number that the store does not have
    /// assert_eq!(Store::open(&state, &directory, &pages).check(), Ok(false));
    /// # Ok::<(), mdeh::Refusal>(())
    /// ```
    ///
    /// A read-only store has no calls that write:
    ///
    /// ```compile_fail
    /// # use mdeh::{Shape, Store, STATE_WORDS};
    /// # let (mut state, mut directory, mut pages) = ([0; STATE_WORDS], [0; 8], [0; 60]);
    /// # Store::fresh(Shape::new(&[2, 2], 2), &mut state, &mut directory, &mut pages)?;
    /// let mut store = Store::open(&state, &directory, &pages);
    /// store.insert([3, 1], 12)?;
    /// # Ok::<(), mdeh::Refusal>(())
    /// ```
    #[inline]
    pub fn open(state: S, directory: D, pages: P) -> Store<S, D, P> {
        Store { state, directory, pages }
    }

    /// The payload of a key's record, and how deep it lies.
    ///
    /// Refused with [`Refusal::Shape`], [`Refusal::Width`], [`Refusal::Capacity`], [`Refusal::Memory`],
    /// [`Refusal::Value`], [`Refusal::Absent`] or [`Refusal::Unsound`].
    #[inline]
    pub fn lookup(&self, key: impl Into<Key>) -> Result<Found, Refusal> {
        let (state, directory, pages) = self.slices();
        raw::lookup(state, directory, pages, key.into().values)
            .map(|(payload, reads, depth)| Found { payload, reads, depth })
            .map_err(Refusal::of)
    }

    /// Writes the records that match a query into `out`, in split order, while whole ones fit.
    ///
    /// A short output is no refusal: [`Listing::total`] then is more than [`Listing::written`]. Refused with
    /// [`Refusal::Shape`], [`Refusal::Width`], [`Refusal::Capacity`], [`Refusal::Memory`], [`Refusal::Attribute`],
    /// [`Refusal::Value`] or [`Refusal::Unsound`]; `out` is then as it was.
    ///
    /// ```
    /// use mdeh::{Query, Shape, Store, RECORD_BYTES, STATE_WORDS};
    ///
    /// let mut store = Store::fresh(Shape::new(&[2, 2], 2), [0; STATE_WORDS], [0; 8], [0; 60])?;
    /// store.insert([2, 1], 13)?;
    /// store.insert([3, 1], 12)?;
    ///
    /// let mut out = [0; RECORD_BYTES + 5]; // room for one record
    /// let listing = store.query([None, Some(1)], &mut out)?;
    /// assert_eq!((listing.written, listing.total), (1, 2));
    /// for record in listing.records() {
    ///     assert_eq!((record.values, record.payload), ([2, 1, 0, 0], 13));
    /// }
    /// # Ok::<(), mdeh::Refusal>(())
    /// ```
    #[inline]
    pub fn query<'o>(&self, query: impl Into<Query>, out: &'o mut [u8]) -> Result<Listing<'o>, Refusal> {
        let query = query.into();
        if query.beyond {
            // after the reasons that check has too
            return Err(self.check().err().unwrap_or(Refusal::Attribute));
        }
        let (state, directory, pages) = self.slices();
        let result = raw::query_result(state, directory, pages, query.raw, out);
        Listing::of(result, self.shape(), out)
    }

    /// Writes the records that lie in a range into `out`, in split order, while whole ones fit.
    ///
    /// A short output is no refusal: [`Listing::total`] then is more than [`Listing::written`]. Refused with
    /// [`Refusal::Shape`], [`Refusal::Width`], [`Refusal::Capacity`], [`Refusal::Memory`], [`Refusal::Attribute`],
    /// [`Refusal::Value`], [`Refusal::Interval`] or [`Refusal::Unsound`]; `out` is then as it was.
    ///
    /// ```
    /// use mdeh::{Range, Shape, Store, RECORD_BYTES, STATE_WORDS};
    ///
    /// let mut store = Store::fresh(Shape::new(&[7, 9], 2), [0; STATE_WORDS], [0; 8], [0; 60])?;
    /// store.insert([30, 398], 1)?;
    /// store.insert([30, 431], 17)?;
    /// store.insert([41, 431], 3)?;
    ///
    /// let mut out = [0; 4 * RECORD_BYTES];
    /// let listing = store.range(Range::all().within(0, 30..=30).within(1, 400..=479), &mut out)?;
    /// assert_eq!(listing.total, 1);
    /// for record in listing.records() {
    ///     assert_eq!((record.values, record.payload), ([30, 431, 0, 0], 17));
    /// }
    /// # Ok::<(), mdeh::Refusal>(())
    /// ```
    #[inline]
    pub fn range<'o>(&self, range: Range, out: &'o mut [u8]) -> Result<Listing<'o>, Refusal> {
        if range.beyond {
            // after the reasons that check has too
            return Err(self.check().err().unwrap_or(Refusal::Attribute));
        }
        let shape = self.shape();
        let (state, directory, pages) = self.slices();
        let result = raw::range_result(state, directory, pages, range.closed(shape), out);
        Listing::of(result, shape, out)
    }

    /// Whether the memory holds a sound store: state, words and pages show one set of records, from which every call is
    /// then answered. To be asked before people act on a list.
    ///
    /// Refused with [`Refusal::Shape`], [`Refusal::Width`], [`Refusal::Capacity`] or [`Refusal::Memory`].
    #[inline]
    pub fn check(&self) -> Result<bool, Refusal> {
        let (state, directory, pages) = self.slices();
        raw::check(state, directory, pages).map_err(Refusal::of)
    }

    /// Writes the file of the records into `out`, from its first byte on, and returns how many bytes it has; the bytes
    /// behind it are left as they are.
    ///
    /// Refused with [`Refusal::Shape`], [`Refusal::Width`], [`Refusal::Capacity`], [`Refusal::Memory`] or
    /// [`Refusal::Unsound`], then with [`Refusal::Memory`] for an output that is shorter than the file; `out` is then
    /// as it was. [`file_bytes`](crate::file_bytes) of the records has room, and [`file_bytes`](crate::file_bytes) of
    /// 65,536, the most that a store holds, always has.
    ///
    /// ```
    /// use mdeh::{file_bytes, Query, Refusal, Shape, Store, STATE_WORDS};
    ///
    /// let mut store = Store::fresh(Shape::new(&[2, 2], 2), [0; STATE_WORDS], [0; 8], [0; 60])?;
    /// store.insert([2, 1], 13)?;
    ///
    /// let records = store.query(Query::all(), &mut [])?.total as usize;
    /// let mut out = [7; 40];
    /// assert_eq!(store.save(&mut out)?, file_bytes(records));
    /// assert_eq!(out[..12], [2, 0, 1, 0, 0, 0, 0, 0, 13, 0, 0, 0]);
    /// assert_eq!(out[36..], [7; 4]); // behind the file
    /// assert_eq!(store.save(&mut out[..35]), Err(Refusal::Memory));
    /// # Ok::<(), Refusal>(())
    /// ```
    #[inline]
    pub fn save(&self, out: &mut [u8]) -> Result<usize, Refusal> {
        let (state, directory, pages) = self.slices();
        raw::save(state, directory, pages, out).map(|size| size as usize).map_err(Refusal::of)
    }

    /// The words of the state: d, the four widths, b, P, L, T, how many leaves there are at depths 0 to 12, and the
    /// marks of signed attributes; then those that are behind it.
    #[inline]
    pub fn state(&self) -> &[u32] {
        self.state.as_ref()
    }

    /// The words of the directory, of which the first 2^T are in use.
    #[inline]
    pub fn directory(&self) -> &[u32] {
        self.directory.as_ref()
    }

    /// The bytes of the pages.
    #[inline]
    pub fn pages(&self) -> &[u8] {
        self.pages.as_ref()
    }

    /// The shape that the state has: zeros, which every call refuses, where it has fewer than [`STATE_WORDS`] words.
    #[inline]
    pub fn shape(&self) -> Shape {
        let [attributes, a, b, c, d, capacity, .., signs] =
            *self.state().first_chunk().unwrap_or(&[0; STATE_WORDS]);
        Shape { attributes, widths: [a, b, c, d], capacity, signs }
    }

    /// The same store over borrowed memory, read-only, for code that is written for one type of store.
    ///
    /// ```
    /// use mdeh::{Query, Refusal, Shape, SharedStore, Store, STATE_WORDS};
    ///
    /// /// How many records a store holds, whatever memory it is in.
    /// fn records(store: SharedStore) -> Result<u64, Refusal> {
    ///     Ok(store.query(Query::all(), &mut [])?.total)
    /// }
    ///
    /// let mut store = Store::fresh(Shape::new(&[2, 2], 2), [0; STATE_WORDS], vec![0; 8], vec![0; 60])?;
    /// store.insert([2, 1], 13)?;
    /// assert_eq!(records(store.shared()), Ok(1));
    /// # Ok::<(), Refusal>(())
    /// ```
    #[inline]
    pub fn shared(&self) -> SharedStore<'_> {
        let (state, directory, pages) = self.slices();
        Store { state, directory, pages }
    }

    /// The three slices.
    #[inline]
    fn slices(&self) -> (&[u32], &[u32], &[u8]) {
        (self.state(), self.directory(), self.pages())
    }
}

/// The words of the state, and the lengths of directory and pages.
impl<S: AsRef<[u32]>, D: AsRef<[u32]>, P: AsRef<[u8]>> Debug for Store<S, D, P> {
    fn fmt(&self, f: &mut Formatter<'_>) -> fmt::Result {
        f.debug_struct("Store")
            .field("state", &self.state())
            .field("words", &self.directory().len())
            .field("bytes", &self.pages().len())
            .finish()
    }
}
