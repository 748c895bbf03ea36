//! A store in every kind of memory that a host has: arrays, vectors and boxes that it owns, what it borrows and shares,
//! bytes that are shown as words. Each list of calls is compared with the calls on slices, to the last byte.
use mdeh::{file_bytes, Query, Range, Refusal, Shape, SharedStore, Store, Words, STATE_WORDS};
use mdeh_tests::compare::Comparisons;
use mdeh_tests::host::{self, Refused};
use mdeh_tests::plain::image::{Image, DEPTH};
use mdeh_tests::random::Random;
use std::cell::Cell;
use std::rc::Rc;
use std::thread;

const SEED: u64 = 0x6d64_6568_2d30_3233;
const SHAPE: Shape = Shape::new(&[6, 5, 7], 3).signed(2);

/// Memory in which every leaf of the lists has room.
const WORDS: usize = 4096;
const BYTES: usize = 300 * SHAPE.page_bytes();

/// Changes of one list.
const CALLS: u64 = 600;

/// Comparisons of one list.
const COMPARED: u64 = 1 + CALLS * 2 + 3;

/// A key of the shape.
fn random_key(random: &mut Random) -> [i32; 4] {
    [random.below(64) as i32, random.below(32) as i32, random.below(128) as i32 - 64, 0]
}

/// The number of a refusal.
fn number(refused: Refused) -> u32 {
    refused.number
}

/// Makes a store in this memory, changes it, and compares each answer and then all memory with those of the calls on
/// slices. Returns the store.
fn compare<S, D, P>(count: &mut Comparisons, about: &str, state: S, directory: D, pages: P) -> Store<S, D, P>
where
    S: AsRef<[u32]> + AsMut<[u32]>,
    D: AsRef<[u32]> + AsMut<[u32]>,
    P: AsRef<[u8]> + AsMut<[u8]>,
{
    let mut random = Random::new(SEED);
    let [mut plain, mut dir] = [state.as_ref(), directory.as_ref()].map(<[u32]>::to_vec);
    let mut bytes = pages.as_ref().to_vec();
    let about = format_args!("{about}");
    let mut store = Store::fresh(SHAPE, state, directory, pages).expect("accepted");
    count.same(host::fresh(SHAPE, &mut plain, &mut dir, &mut bytes), Ok(()), about);
    for payload in 1..=CALLS as u32 {
        let key = random_key(&mut random);
        let (found, expected) = match random.below(4) {
            0 => (
                store.delete(key).map(|deleted| deleted.depth),
                host::delete(&mut plain, &mut dir, &mut bytes, key),
            ),
            _ => (
                store.insert(key, payload).map(|inserted| inserted.depth),
                host::insert(&mut plain, &mut dir, &mut bytes, key, payload),
            ),
        };
        count.same(found.map_err(Refusal::number), expected.map_err(number), about);
        let found = store.lookup(key).map(|found| (found.payload, found.reads, found.depth));
        let expected = host::lookup(&plain, &dir, &bytes, key);
        count.same(found.map_err(Refusal::number), expected.map_err(number), about);
    }
    count.same((store.state(), store.directory(), store.pages()), (&plain[..], &dir[..], &bytes[..]), about);
    count.same(store.check(), Ok(true), about);
    count.same(store.shape(), SHAPE, about);
    assert!(store.state()[DEPTH] >= 8, "the directory was doubled");
    store
}

/// Bytes that begin at a multiple of 4, or so many bytes behind one: a host's own type, as a mapping is.
struct Arena {
    bytes: Vec<u8>,
    start: usize,
    shift: Rc<Cell<usize>>,
}

impl Arena {
    /// At least so many bytes, and 16 more.
    fn new(count: usize) -> Arena {
        let bytes = vec![0; count + 32];
        Arena { start: bytes.as_ptr().align_offset(4), bytes, shift: Rc::default() }
    }
}

impl AsRef<[u8]> for Arena {
    fn as_ref(&self) -> &[u8] {
        &self.bytes[self.start + self.shift.get()..]
    }
}

impl AsMut<[u8]> for Arena {
    fn as_mut(&mut self) -> &mut [u8] {
        &mut self.bytes[self.start + self.shift.get()..]
    }
}

#[test]
fn every_kind_of_memory() {
    let mut count = Comparisons::default();
    compare(&mut count, "arrays", [0; STATE_WORDS], [0; WORDS], [0; BYTES]);
    compare(&mut count, "vectors", vec![9; STATE_WORDS + 2], vec![9; WORDS], vec![9; BYTES]);
    let boxed = |length| vec![7; length].into_boxed_slice();
    compare(&mut count, "boxes", boxed(STATE_WORDS), boxed(WORDS), vec![7; BYTES].into_boxed_slice());
    let (mut state, mut directory, mut pages) = ([0; STATE_WORDS], vec![0; WORDS], vec![0; BYTES]);
    compare(&mut count, "borrowed", &mut state, &mut directory, &mut pages);
    compare(&mut count, "slices", &mut state[..], &mut directory[..], &mut pages[..]);
    compare(&mut count, "a part borrowed", [0; STATE_WORDS], &mut directory, vec![0; BYTES]);
    let words = |length| Words::new(Arena::new(4 * length)).expect("it begins at a multiple of 4");
    compare(&mut count, "bytes", words(STATE_WORDS), words(WORDS), Arena::new(BYTES));
    let mut arena = Arena::new(4 * (STATE_WORDS + WORDS) + BYTES);
    let (head, pages) = arena.as_mut().split_at_mut(4 * (STATE_WORDS + WORDS));
    let (state, directory) = head.split_at_mut(4 * STATE_WORDS);
    let [state, directory] = [state, directory].map(|bytes| Words::new(bytes).expect("multiples of 4"));
    compare(&mut count, "one divided", state, directory, pages);
    count.end(8 * COMPARED);
}

/// A host with a store as a field, as one value.
struct Host {
    name: &'static str,
    store: Store<[u32; STATE_WORDS], Vec<u32>, Box<[u8]>>,
}

#[test]
fn a_host_that_owns_its_store_is_moved() {
    let mut count = Comparisons::default();
    let store = compare(&mut count, "owned", [0; STATE_WORDS], vec![0; WORDS], vec![0; BYTES].into());
    let expected = store.shared().check().map(|_| image(&store.shared()));
    let hosts = vec![Box::new(Host { name: "gateway", store })];
    let changed = thread::spawn(move || {
        let mut host = *hosts.into_iter().next().expect("there is a host");
        host.store.insert([63, 31, -1], 7).expect("accepted");
        host
    });
    let mut host = changed.join().expect("the thread ends");
    assert_eq!((host.name, host.store.check()), ("gateway", Ok(true)));
    assert_eq!(host.store.lookup([63, 31, -1]).map(|found| found.payload), Ok(7));
    host.store.delete([63, 31, -1]).expect("accepted");
    assert_eq!(Ok(image(&host.store.shared()).state), expected.map(|image| image.state));
    let (state, directory, pages) = host.store.into_parts();
    assert_eq!(Store::open(&state, &directory, &pages).check(), Ok(true));
    count.end(COMPARED);
}

/// The memory of a store.
fn image(store: &SharedStore) -> Image {
    Image { state: store.state().to_vec(), dir: store.directory().to_vec(), pages: store.pages().to_vec() }
}

/// Memory that is opened for each call has all that the calls before did to it.
#[test]
fn no_state_goes_stale() {
    let mut random = Random::new(SEED);
    let (mut state, mut directory, mut pages) = ([0; STATE_WORDS], [0; WORDS], [0; BYTES]);
    let fresh = Store::fresh(SHAPE, &mut state, &mut directory, &mut pages);
    assert_eq!(fresh.map(drop), Ok(()));
    let mut depths = Vec::new();
    let mut stored = Vec::new();
    for payload in 1..=400 {
        let key = random_key(&mut random);
        let mut store = Store::open(&mut state, &mut directory, &mut pages);
        match store.insert(key, payload) {
            Ok(_) => stored.push((key, payload)),
            refused => assert_eq!(refused, Err(Refusal::Stored)),
        }
        depths.push(state[DEPTH]);
        assert_eq!(Store::open(&state, &directory, &pages).check(), Ok(true));
    }
    depths.dedup();
    assert!(depths.len() >= 7, "{depths:?}");
    let store = Store::open(&state, &directory, &pages);
    for (key, payload) in stored {
        assert_eq!(store.lookup(key).map(|found| found.payload), Ok(payload));
    }
}

#[test]
fn a_clone_is_a_store_of_its_own() {
    let mut store = Store::fresh(SHAPE, [0; STATE_WORDS], vec![0; WORDS], vec![0; BYTES]).expect("accepted");
    store.insert([1, 2, 3], 4).expect("accepted");
    let mut clone = store.clone();
    clone.insert([1, 2, 4], 5).expect("accepted");
    assert_eq!(store.lookup([1, 2, 4]), Err(Refusal::Absent { depth: 0 }));
    assert_eq!(store.query(Query::all(), &mut []).map(|listing| listing.total), Ok(1));
    assert_eq!((clone.check(), store.check()), (Ok(true), Ok(true)));
}

#[test]
fn stores_are_sent_and_shared_as_their_memory_is() {
    fn sent_and_shared<T: Send + Sync>(_: &T) {}
    let mut store = Store::fresh(SHAPE, [0; STATE_WORDS], vec![0; WORDS], vec![0; BYTES]).expect("accepted");
    sent_and_shared(&store.lent());
    sent_and_shared(&store.shared());
    sent_and_shared(&store);
}

/// Every number of words below those of a state: no call takes it, and none writes.
#[test]
fn a_state_of_too_few_words() {
    let nothing = Shape { attributes: 0, widths: [0; 4], capacity: 0, signs: 0 };
    let mut file = [0; file_bytes(0)];
    let store = Store::fresh(SHAPE, [0; STATE_WORDS], [0; WORDS], [0; BYTES]).expect("accepted");
    let size = store.save(&mut file).expect("accepted");
    let (whole, mut directory, mut pages) = store.into_parts();
    for words in 0..STATE_WORDS {
        let mut state = whole[..words].to_vec();
        let made = Store::fresh(SHAPE, &mut state, &mut directory, &mut pages).map(drop);
        assert_eq!(made, Err(Refusal::Memory));
        let made = Store::load(&file[..size], &mut state, &mut directory, &mut pages).map(drop);
        assert_eq!(made, Err(Refusal::Memory));
        let mut store = Store::open(&mut state, &mut directory, &mut pages);
        let mut refused = vec![store.insert([1], 1).err(), store.delete([1]).err(), store.lookup([1]).err()];
        refused.extend([store.check().err(), store.save(&mut [0; 24]).err()]);
        refused
            .extend([Query::all(), Query::all().given(4, 0)].map(|query| store.query(query, &mut []).err()));
        refused.push(store.range(Range::all().within(0, 1..), &mut []).err());
        assert_eq!(refused, [Some(Refusal::Shape); 8]);
        assert_eq!((store.shape(), store.state().len()), (nothing, words));
        assert!(format!("{store:?}").starts_with("Store { state: ["));
        assert_eq!(state, whole[..words]);
    }
}

/// Bytes that begin at a multiple of 4 when they are given, and elsewhere later.
#[test]
fn words_of_bytes_that_move() {
    let words = |length| Words::new(Arena::new(4 * length)).expect("it begins at a multiple of 4");
    let arena = Arena::new(4 * STATE_WORDS);
    for shift in 1..4 {
        arena.shift.set(shift);
        assert!(Words::new(arena.as_ref()).is_none());
    }
    let mut store =
        Store::fresh(SHAPE, words(STATE_WORDS), words(WORDS), Arena::new(BYTES)).expect("accepted");
    store.insert([1, 2, 3], 4).expect("accepted");
    let (state, directory, pages) = store.into_parts();
    let [state, directory] = [state, directory].map(Words::into_inner);
    for (moved, refusal) in [(&state, Refusal::Shape), (&directory, Refusal::Memory)] {
        for shift in 1..4 {
            let [state, directory] = [&state, &directory].map(|arena| Words::new(arena).expect("as before"));
            moved.shift.set(shift);
            let store = Store::open(state, directory, &pages);
            assert_eq!(store.check(), Err(refusal));
            moved.shift.set(0);
            assert_eq!(store.lookup([1, 2, 3]).map(|found| found.payload), Ok(4));
        }
    }
    // up to three bytes behind the last word are left alone
    let bytes = Arena::new(0);
    let lengths =
        (0..16).map(|length| Words::new(&bytes.as_ref()[..length]).expect("as before").as_ref().len());
    assert_eq!(lengths.collect::<Vec<_>>(), (0..16).map(|length| length / 4).collect::<Vec<_>>());
}

/// A change of words that begin elsewhere is refused, and changes nothing.
#[test]
fn changes_of_bytes_that_move() {
    for (part, refusal) in [Refusal::Shape, Refusal::Memory].into_iter().enumerate() {
        let arenas = [STATE_WORDS, WORDS].map(|length| Arena::new(4 * length));
        let shift = Rc::clone(&arenas[part].shift);
        let [state, directory] = arenas.map(|arena| Words::new(arena).expect("it begins at a multiple of 4"));
        let mut store = Store::fresh(SHAPE, state, directory, Arena::new(BYTES)).expect("accepted");
        for moved in 1..4 {
            shift.set(moved);
            assert_eq!(store.insert([1, 2, 3], 4), Err(refusal));
        }
        shift.set(0);
        assert_eq!((store.insert([1, 2, 3], 4).is_ok(), store.check()), (true, Ok(true)));
    }
}
