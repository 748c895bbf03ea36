//! A store in a mapped file: made in three mappings of it, closed, read in a mapping that cannot be written, changed in
//! one that is divided, and opened again.
use mdeh::{Refusal, Shape, Store, Words, MOST_WORDS, STATE_WORDS};
use mdeh_tests::random::Random;
use std::ffi::{c_int, c_void};
use std::fs::{File, OpenOptions};
use std::os::fd::AsRawFd;
use std::path::Path;
use std::slice;

const SEED: u64 = 0x6d64_6568_2d30_3234;
const SHAPE: Shape = Shape::new(&[8, 8, 10], 16).signed(2);

/// Where directory and pages begin in the file, and where it ends: multiples of what the system maps.
const DIRECTORY: usize = 4096;
const PAGES: usize = DIRECTORY + 4 * MOST_WORDS;
const END: usize = PAGES + 100 * 4096;

const PROT_READ: c_int = 1;
const PROT_WRITE: c_int = 2;
const MAP_SHARED: c_int = 1;

extern "C" {
    fn mmap(
        address: *mut c_void,
        length: usize,
        protection: c_int,
        flags: c_int,
        file: c_int,
        offset: i64,
    ) -> *mut c_void;
    fn munmap(address: *mut c_void, length: usize) -> c_int;
}

/// A part of a file in memory, to be read.
struct Mapped {
    address: *mut u8,
    length: usize,
}

impl Mapped {
    /// The bytes of a file from `start` to `end`.
    fn new(file: &File, start: usize, end: usize, protection: c_int) -> Mapped {
        let length = end - start;
        let (descriptor, offset) = (file.as_raw_fd(), start as i64);
        // SAFETY: a new mapping, at an address that the system chooses.
        let address =
            unsafe { mmap(std::ptr::null_mut(), length, protection, MAP_SHARED, descriptor, offset) };
        assert_ne!(address as isize, -1, "{:?}", std::io::Error::last_os_error());
        Mapped { address: address.cast(), length }
    }
}

impl Drop for Mapped {
    fn drop(&mut self) {
        // SAFETY: the mapping is this one, and what it shows is not borrowed any more.
        assert_eq!(unsafe { munmap(self.address.cast(), self.length) }, 0);
    }
}

impl AsRef<[u8]> for Mapped {
    fn as_ref(&self) -> &[u8] {
        // SAFETY: so many bytes are mapped, and no test changes the file while it reads them.
        unsafe { slice::from_raw_parts(self.address, self.length) }
    }
}

/// A part of a file in memory, to be read and written.
struct MappedMut(Mapped);

impl MappedMut {
    /// The bytes of a file from `start` to `end`.
    fn new(file: &File, start: usize, end: usize) -> MappedMut {
        MappedMut(Mapped::new(file, start, end, PROT_READ | PROT_WRITE))
    }
}

impl AsRef<[u8]> for MappedMut {
    fn as_ref(&self) -> &[u8] {
        self.0.as_ref()
    }
}

impl AsMut<[u8]> for MappedMut {
    fn as_mut(&mut self) -> &mut [u8] {
        // SAFETY: so many bytes are mapped to be written, and borrowed by this alone.
        unsafe { slice::from_raw_parts_mut(self.0.address, self.0.length) }
    }
}

/// A gateway whose store is in a file.
struct Gateway {
    store: Store<Words<MappedMut>, Words<MappedMut>, MappedMut>,
}

impl Gateway {
    /// A store without records, in three mappings.
    fn new(file: &File) -> Gateway {
        let words = |start, end| Words::new(MappedMut::new(file, start, end)).expect("mappings are aligned");
        let pages = MappedMut::new(file, PAGES, END);
        let store = Store::fresh(SHAPE, words(0, DIRECTORY), words(DIRECTORY, PAGES), pages);
        Gateway { store: store.expect("accepted") }
    }
}

/// The file of a test, of its greatest length.
fn new_file(name: &str) -> File {
    let path = Path::new(env!("CARGO_TARGET_TMPDIR")).join(name);
    let file = OpenOptions::new().read(true).write(true).create(true).truncate(true).open(path);
    let file = file.expect("the file can be made");
    file.set_len(END as u64).expect("it can be lengthened");
    file
}

/// A key of the shape.
fn random_key(random: &mut Random) -> [i32; 3] {
    [random.below(256) as i32, random.below(256) as i32, random.below(1024) as i32 - 512]
}

/// A record: its key and its payload.
type Stored = ([i32; 3], u32);

/// Fills the store in a file by three mappings, and closes it. Returns the records.
fn fill(file: &File, keys: &[[i32; 3]]) -> Vec<Stored> {
    let mut gateway = Gateway::new(file);
    let stored = |(&key, payload)| gateway.store.insert(key, payload).map(|_| (key, payload));
    keys.iter().zip(1..).flat_map(stored).collect()
}

/// Asserts that the store in a file is sound and has these records, in a mapping that cannot be written.
fn read(file: &File, stored: &[Stored]) {
    let mapped = Mapped::new(file, 0, END, PROT_READ);
    let (head, pages) = mapped.as_ref().split_at(PAGES);
    let (state, directory) = head.split_at(DIRECTORY);
    let [state, directory] = [state, directory].map(|bytes| Words::new(bytes).expect("mappings are aligned"));
    let store = Store::open(state, directory, pages);
    assert_eq!((store.check(), store.shape()), (Ok(true), SHAPE));
    for &(key, payload) in stored {
        assert_eq!(store.lookup(key).map(|found| found.payload), Ok(payload));
    }
}

/// Deletes these records, in one mapping that is divided.
fn delete(file: &File, records: &[Stored]) {
    let mut mapped = MappedMut::new(file, 0, END);
    let (head, pages) = mapped.as_mut().split_at_mut(PAGES);
    let (state, directory) = head.split_at_mut(DIRECTORY);
    let state = &mut state[..4 * STATE_WORDS];
    let [state, directory] = [state, directory].map(|bytes| Words::new(bytes).expect("mappings are aligned"));
    let mut store = Store::open(state, directory, pages);
    records.iter().for_each(|&(key, _)| assert!(store.delete(key).is_ok()));
}

#[test]
fn a_store_is_kept_in_a_file() {
    let file = new_file("kept");
    let mut random = Random::new(SEED);
    let keys: Vec<_> = (0..4000).map(|_| random_key(&mut random)).collect();
    let stored = fill(&file, &keys);
    assert!(stored.len() > 3900);
    read(&file, &stored);
    let (kept, deleted) = stored.split_at(100);
    delete(&file, deleted);
    read(&file, kept);
    // a store that owns three mappings, none of which can be written
    let part = |start, end| Mapped::new(&file, start, end, PROT_READ);
    let words = |start, end| Words::new(part(start, end)).expect("mappings are aligned");
    let store = Store::open(words(0, DIRECTORY), words(DIRECTORY, PAGES), part(PAGES, END));
    for &(key, _) in deleted {
        assert!(matches!(store.lookup(key), Err(Refusal::Absent { .. })));
    }
}
