//! What `embed/mdeh.h` says of threads: calls that read share a store, and a call needs little stack.
use mdeh::{file_bytes, LentStore, Query, Range, Refusal, Shape, Store, RECORD_BYTES, STATE_WORDS};
use mdeh_tests::random::Random;
use std::thread;

const SEED: u64 = 0x6d64_6568_2d30_3135;
const SHAPE: Shape = Shape::new(&[8, 8, 10], 16).signed(2);

/// The stack that the header says, and what a thread itself needs.
const STACK: usize = (32 + 8) << 10;

/// State, words and bytes for the greatest store.
fn memory() -> ([u32; STATE_WORDS], Vec<u32>, Vec<u8>) {
    ([0; STATE_WORDS], vec![0; 4096], vec![0; 4096 * SHAPE.page_bytes()])
}

/// The payload of a key, 0 for one of eight.
fn payload_of([a, b, c]: [i32; 3]) -> u32 {
    match c % 8 {
        0 => 0,
        _ => 1 + (a ^ b ^ (c + 512)) as u32,
    }
}

/// Random keys, those refused for their payload or their depth left out.
fn fill(mut store: LentStore, random: &mut Random) -> Vec<[i32; 3]> {
    let bounds = [(0, 255), (0, 255), (-512, 511)];
    let mut value = |(least, greatest)| least + random.below((greatest - least) as usize + 1) as i32;
    let mut keys: Vec<_> = (0..30_000).map(|_| bounds.map(&mut value)).collect();
    let mut refused = 0;
    keys.retain(|&key| {
        let answer = store.insert(key, payload_of(key)).map_err(Refusal::number);
        refused += u64::from(answer == Err(11));
        answer.is_ok()
    });
    assert!(refused > 1000, "{refused} refused with 11");
    assert_eq!(store.state()[8], 12, "the directory is as deep as it can be");
    keys
}

#[test]
fn threads_share_a_store() {
    let (state, directory, pages) = memory();
    let mut store = Store::fresh(SHAPE, state, directory, pages).expect("accepted");
    let keys = fill(store.lent(), &mut Random::new(SEED));
    let (store, keys) = (&store, &keys);
    let mut saved = vec![0; file_bytes(keys.len())];
    assert_eq!(store.save(&mut saved), Ok(saved.len()));
    let saved = &saved;
    let read = |code: i32| {
        let mut out = vec![0; keys.len() * RECORD_BYTES];
        assert!(keys
            .iter()
            .all(|&key| store.lookup(key).is_ok_and(|found| found.payload == payload_of(key))));
        let found = store.query(Query::all().given(0, code), &mut out).expect("accepted");
        assert_eq!(found.total, keys.iter().filter(|key| key[0] == code).count() as u64);
        let found = store.range(Range::all().within(2, -code..480), &mut out).expect("accepted");
        assert_eq!(found.total, keys.iter().filter(|key| (-code..480).contains(&key[2])).count() as u64);
        assert_eq!(store.check(), Ok(true));
        let mut file = vec![0; saved.len()];
        assert_eq!((store.save(&mut file), &file), (Ok(saved.len()), saved));
    };
    thread::scope(|scope| (0..4).for_each(|code| drop(scope.spawn(move || read(code)))));
}

#[test]
fn every_call_on_a_small_stack() {
    let (mut state, mut directory, mut pages) = memory();
    let mut out = vec![0; 30_000 * RECORD_BYTES];
    let mut file = vec![0; file_bytes(30_000)];
    let calls = move || {
        let mut store = Store::fresh(SHAPE, &mut state, &mut directory, &mut pages).expect("accepted");
        let keys = fill(store.lent(), &mut Random::new(SEED));
        let listed = store.query(Query::all(), &mut out).expect("accepted").records().count();
        assert_eq!((listed, store.check()), (keys.len(), Ok(true)));
        let range = Range::all().within(1, 1..).within(2, ..100);
        let listed = store.range(range, &mut out).expect("accepted").records().count();
        assert_eq!(listed, keys.iter().filter(|key| key[1] > 0 && key[2] < 100).count());
        let size = store.save(&mut file).expect("accepted");
        assert_eq!(size, file_bytes(keys.len()));
        assert!(keys.iter().all(|&key| store.lookup(key).is_ok() && store.delete(key).is_ok()));
        let store = Store::load(&file[..size], &mut state, &mut directory, &mut pages).expect("accepted");
        assert_eq!(store.query(Query::all(), &mut []).expect("accepted").total, keys.len() as u64);
    };
    thread::Builder::new().stack_size(STACK).spawn(calls).expect("a thread").join().expect("the calls end");
}
