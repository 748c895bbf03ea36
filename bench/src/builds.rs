//! The proved store's calls on lent memory: of the library that is linked, and of another build of it.
use crate::dynamic::{function, Address, Library};
use crate::packed::Intervals;
use crate::step::{EARLIER, PROVED};
use mdeh_tests::host::{
    ChangeResult, CheckResult, HostQuery, HostRange, Key, LookupResult, MakeResult, QueryResult, SaveResult,
    Shape,
};
use std::ffi::{CStr, CString};
use std::ptr::null_mut;

/// The variable that names a shared library with the calls of another build.
const EARLIER_BUILD: &str = "MDEH_EARLIER";

/// The store's memory: the words of its state, those of the directory, and the bytes of pages.
#[derive(Clone)]
pub struct Lent {
    pub state: Vec<u32>,
    pub dir: Vec<u32>,
    pub pages: Vec<u8>,
}

/// A build's calls, all by pointers, so that no build is called more quickly than another.
#[derive(Clone, Copy)]
pub struct Build {
    pub name: &'static str,
    fresh: Fresh,
    insert: Insert,
    delete: Delete,
    lookup: Lookup,
    query: Query,
    check: Check,
    /// its lookup and check where it names no attribute
    nameless: Option<(NamelessLookup, NamelessCheck)>,
    /// which earlier builds may lack
    range: Option<Range>,
    files: Option<(Save, Load)>,
}

type Fresh = unsafe extern "C" fn(Shape, *mut u32, usize, *mut u32, usize, *mut u8, usize) -> MakeResult;
#[rustfmt::skip]
type Insert = unsafe extern "C" fn(
    *mut u32, usize, *mut u32, usize, *mut u8, usize, Key, u32,
) -> ChangeResult;
type Delete = unsafe extern "C" fn(*mut u32, usize, *mut u32, usize, *mut u8, usize, Key) -> ChangeResult;
type Lookup =
    unsafe extern "C" fn(*const u32, usize, *const u32, usize, *const u8, usize, Key) -> LookupResult;
#[rustfmt::skip]
type Query = unsafe extern "C" fn(
    *const u32, usize, *const u32, usize, *const u8, usize, HostQuery, *mut u8, usize,
) -> QueryResult;
#[rustfmt::skip]
type Range = unsafe extern "C" fn(
    *const u32, usize, *const u32, usize, *const u8, usize, HostRange, *mut u8, usize,
) -> QueryResult;
#[rustfmt::skip]
type Save = unsafe extern "C" fn(
    *const u32, usize, *const u32, usize, *const u8, usize, *mut u8, usize,
) -> SaveResult;
#[rustfmt::skip]
type Load = unsafe extern "C" fn(
    *const u8, usize, *mut u32, usize, *mut u32, usize, *mut u8, usize,
) -> MakeResult;
type Check = unsafe extern "C" fn(*const u32, usize, *const u32, usize, *const u8, usize) -> CheckResult;
type NamelessLookup =
    unsafe extern "C" fn(*const u32, usize, *const u32, usize, *const u8, usize, Key) -> NamelessFound;
type NamelessCheck =
    unsafe extern "C" fn(*const u32, usize, *const u32, usize, *const u8, usize) -> NamelessChecked;

/// What a lookup returns in a build whose results have no attribute behind their number.
#[repr(C)]
struct NamelessFound {
    number: u32,
    payload: u32,
    _reads: u32,
    _depth: u32,
}

/// What its check returns.
#[repr(C)]
struct NamelessChecked {
    number: u32,
    sound: u32,
}

// The functions of the linked library, for their addresses.
extern "C" {
    fn mdeh_fresh();
    fn mdeh_insert();
    fn mdeh_delete();
    fn mdeh_lookup();
    fn mdeh_query();
    fn mdeh_check();
    fn mdeh_range();
    fn mdeh_save();
    fn mdeh_load();
}

/// Their names, in the same order, but for the range, save and load.
const NAMES: [&CStr; 6] =
    [c"mdeh_fresh", c"mdeh_insert", c"mdeh_delete", c"mdeh_lookup", c"mdeh_query", c"mdeh_check"];

impl Build {
    /// The build whose library is linked, and another one where the environment names it.
    pub fn all() -> Vec<Build> {
        let linked = [mdeh_fresh, mdeh_insert, mdeh_delete, mdeh_lookup, mdeh_query, mdeh_check];
        let files = [mdeh_save as Address, mdeh_load as Address];
        // SAFETY: the functions are those of the store's header.
        let proved = unsafe {
            let linked = linked.map(|function| function as Address);
            Build::at(PROVED, linked, Some(mdeh_range as Address), Some(files))
        };
        let mut all = vec![proved];
        if let Ok(path) = std::env::var(EARLIER_BUILD) {
            let name = CString::new(path.clone()).expect("no zero byte");
            let library = Library::open(&name).unwrap_or_else(|| panic!("{path} is no shared library"));
            let address = |name| library.address(name).unwrap_or_else(|| panic!("{path} lacks {name:?}"));
            let files = library.address(c"mdeh_save").zip(library.address(c"mdeh_load"));
            // SAFETY: as above.
            all.push(unsafe {
                let range = library.address(c"mdeh_range");
                Build::at(EARLIER, NAMES.map(address), range, files.map(|(save, load)| [save, load]))
            });
        }
        all
    }

    /// The build with functions at these addresses, in the order of `NAMES`, the range, and save and load.
    ///
    /// # Safety
    /// They have the types that the store's header gives them, and no `requires`. A build whose shape and state have no
    /// marks of signed attributes, which come last in both, is called alike: it leaves them alone. So is one that gives
    /// no depths, which come last in what insert, delete and lookup return: it has the other numbers where this one has.
    /// One that names no attribute refuses a width of 0 with 1. Its lookup and check return less; the number and, of a
    /// query, a range and a save, the counts are where this one has them.
    unsafe fn at(
        name: &'static str,
        [fresh, insert, delete, lookup, query, check]: [Address; 6],
        range: Option<Address>,
        files: Option<[Address; 2]>,
    ) -> Build {
        // SAFETY: as above; Fresh is lent nothing.
        unsafe {
            let make: Fresh = function(fresh);
            let made = make(Shape::new(&[0], 1), null_mut(), 0, null_mut(), 0, null_mut(), 0);
            Build {
                name,
                fresh: make,
                insert: function(insert),
                delete: function(delete),
                lookup: function(lookup),
                query: function(query),
                check: function(check),
                nameless: (made.number == 1).then(|| (function(lookup), function(check))),
                range: range.map(|range| function(range)),
                files: files.map(|[save, load]| (function(save), function(load))),
            }
        }
    }

    /// Makes a store without records; whether it is accepted.
    pub fn fresh(&self, shape: Shape, Lent { state, dir, pages }: &mut Lent) -> bool {
        let (state, words) = (state.as_mut_ptr(), state.len());
        // SAFETY: each pointer and length are of one slice, and the slices do not overlap; so in all calls.
        let made = unsafe {
            (self.fresh)(shape, state, words, dir.as_mut_ptr(), dir.len(), pages.as_mut_ptr(), pages.len())
        };
        made.number == 0
    }

    /// 1 for an accepted insert, 0 for a refused one.
    #[inline]
    pub fn insert(&self, Lent { state, dir, pages }: &mut Lent, values: [i32; 4], payload: u32) -> u64 {
        let (state, words, key) = (state.as_mut_ptr(), state.len(), Key { values });
        let (dir, size) = (dir.as_mut_ptr(), dir.len());
        // SAFETY: see `fresh`.
        let inserted =
            unsafe { (self.insert)(state, words, dir, size, pages.as_mut_ptr(), pages.len(), key, payload) };
        (inserted.number == 0).into()
    }

    /// 1 for an accepted delete, 0 for a refused one.
    #[inline]
    pub fn delete(&self, Lent { state, dir, pages }: &mut Lent, values: [i32; 4]) -> u64 {
        let (state, words, key) = (state.as_mut_ptr(), state.len(), Key { values });
        let (dir, size) = (dir.as_mut_ptr(), dir.len());
        // SAFETY: see `fresh`.
        let deleted = unsafe { (self.delete)(state, words, dir, size, pages.as_mut_ptr(), pages.len(), key) };
        (deleted.number == 0).into()
    }

    /// The payload of a key's record, or the number of the refusal.
    #[inline]
    pub fn lookup(&self, Lent { state, dir, pages }: &Lent, values: [i32; 4]) -> Result<u32, u32> {
        let (state, words, key) = (state.as_ptr(), state.len(), Key { values });
        let (dir, size) = (dir.as_ptr(), dir.len());
        // SAFETY: see `fresh`.
        let (number, payload) = unsafe {
            match self.nameless {
                None => {
                    let found = (self.lookup)(state, words, dir, size, pages.as_ptr(), pages.len(), key);
                    (found.number, found.payload)
                }
                Some((lookup, _)) => {
                    let found = lookup(state, words, dir, size, pages.as_ptr(), pages.len(), key);
                    (found.number, found.payload)
                }
            }
        };
        match number {
            0 => Ok(payload),
            number => Err(number),
        }
    }

    /// What a query writes and counts, as the library returns it.
    #[inline]
    pub fn query(
        &self,
        Lent { state, dir, pages }: &Lent,
        query: [Option<i32>; 4],
        out: &mut [u8],
    ) -> QueryResult {
        let (state, words, query) = (state.as_ptr(), state.len(), HostQuery::new(query));
        let (dir, size) = (dir.as_ptr(), dir.len());
        let (out, room) = (out.as_mut_ptr(), out.len());
        // SAFETY: see `fresh`.
        unsafe { (self.query)(state, words, dir, size, pages.as_ptr(), pages.len(), query, out, room) }
    }

    /// Whether the build has ranges.
    pub fn has_range(&self) -> bool {
        self.range.is_some()
    }

    /// What a range writes and counts, as the library returns it.
    #[inline]
    pub fn range(&self, Lent { state, dir, pages }: &Lent, range: Intervals, out: &mut [u8]) -> QueryResult {
        let call = self.range.expect("the build has ranges");
        let (state, words, range) = (state.as_ptr(), state.len(), HostRange::new(range));
        let (dir, size) = (dir.as_ptr(), dir.len());
        let (out, room) = (out.as_mut_ptr(), out.len());
        // SAFETY: see `fresh`.
        unsafe { call(state, words, dir, size, pages.as_ptr(), pages.len(), range, out, room) }
    }

    /// Whether the build has files.
    pub fn has_files(&self) -> bool {
        self.files.is_some()
    }

    /// The bytes of the store's file, which is written; 0 for a refused save.
    #[inline]
    pub fn save(&self, Lent { state, dir, pages }: &Lent, out: &mut [u8]) -> u64 {
        let (call, _) = self.files.expect("the build has files");
        let (state, words) = (state.as_ptr(), state.len());
        let (dir, size) = (dir.as_ptr(), dir.len());
        let (out, room) = (out.as_mut_ptr(), out.len());
        // SAFETY: see `fresh`.
        unsafe { call(state, words, dir, size, pages.as_ptr(), pages.len(), out, room).size }
    }

    /// 1 for an accepted load, 0 for a refused one.
    #[inline]
    pub fn load(&self, file: &[u8], Lent { state, dir, pages }: &mut Lent) -> u64 {
        let (_, call) = self.files.expect("the build has files");
        let (state, words) = (state.as_mut_ptr(), state.len());
        let (dir, size) = (dir.as_mut_ptr(), dir.len());
        let (pages, bytes) = (pages.as_mut_ptr(), pages.len());
        // SAFETY: see `fresh`.
        let made = unsafe { call(file.as_ptr(), file.len(), state, words, dir, size, pages, bytes) };
        (made.number == 0).into()
    }

    /// Whether the store is sound.
    pub fn check(&self, Lent { state, dir, pages }: &Lent) -> bool {
        let (state, words) = (state.as_ptr(), state.len());
        let (dir, size) = (dir.as_ptr(), dir.len());
        // SAFETY: see `fresh`.
        let (number, sound) = unsafe {
            match self.nameless {
                None => {
                    let found = (self.check)(state, words, dir, size, pages.as_ptr(), pages.len());
                    (found.number, found.sound)
                }
                Some((_, check)) => {
                    let found = check(state, words, dir, size, pages.as_ptr(), pages.len());
                    (found.number, found.sound)
                }
            }
        };
        (number, sound) == (0, 1)
    }
}
