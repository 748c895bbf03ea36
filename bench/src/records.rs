//! The same records in every form that the calls are compared in.
use crate::builds::{Build, Lent};
use crate::database;
use crate::inputs::shown;
use crate::numbers::grouped;
use crate::packed::{self, Record, ATTRIBUTES};
use crate::scans::Columns;
use crate::sqlite::Database;
use crate::store::Store;
use mdeh_tests::host::{Shape, STATE_WORDS};
use mdeh_tests::random::Random;

/// How many records there are, what they are called, their widths, and below what each attribute's values are.
#[derive(Clone, Copy)]
pub struct Sample {
    pub records: usize,
    pub called: &'static str,
    pub widths: [u32; ATTRIBUTES],
    pub below: [usize; ATTRIBUTES],
}

/// The lent memory: the words of a directory of depth 12, and the bytes of 4,096 pages.
const WORDS: usize = 1 << 12;
const BYTES: usize = PAGES * PAGE;
const PAGES: usize = 4096;
const CAPACITY: u32 = 16;

/// The bytes of a page.
pub const PAGE: usize = 2 + 12 * CAPACITY as usize;

pub type Key = [i32; 4];

/// What is inserted: a key and a payload.
pub type Input = (Key, u32);

impl Sample {
    /// Records with any values.
    pub fn random(records: usize, widths: [u32; ATTRIBUTES]) -> Sample {
        Sample { records, called: "records", widths, below: widths.map(|width| 1 << width) }
    }

    pub fn shape(&self) -> Shape {
        Shape::new(&self.widths, CAPACITY)
    }

    /// How many records are deleted: of so many more that are inserted at first, and by a run of the deletes that are
    /// measured.
    pub fn deleted(&self) -> usize {
        self.records / 10
    }

    pub fn shown(&self) -> String {
        format!("{} {}", grouped(self.records), self.called)
    }

    /// A random key.
    pub fn key(&self, random: &mut Random) -> Key {
        let [a0, a1, a2] = self.below.map(|below| random.below(below) as i32);
        [a0, a1, a2, 0]
    }

    /// A proved store without records.
    pub fn proved(&self, build: &Build) -> Lent {
        let mut lent = Lent { state: vec![0; STATE_WORDS], dir: vec![0; WORDS], pages: vec![0; BYTES] };
        assert!(build.fresh(self.shape(), &mut lent));
        lent
    }

    /// A plain store without records.
    pub fn plain(&self) -> Store {
        Store::new(self.shape(), WORDS, BYTES)
    }
}

/// The same records in every form, kept as long as the program runs.
#[derive(Clone, Copy)]
pub struct Forms {
    pub sample: Sample,
    pub builds: &'static [Build],
    pub lent: &'static Lent,
    pub plain: &'static Store,
    /// packed, in split order
    pub records: &'static [Record],
    pub columns: &'static Columns,
    pub database: Option<&'static Database>,
}

impl Forms {
    /// Random records, some of them deleted again: the plain store is filled by its inserts, the proved store is lent a
    /// copy of its memory.
    pub fn new(random: &mut Random, builds: &'static [Build], sample: Sample) -> Forms {
        let count = sample.records;
        let mut plain = sample.plain();
        let mut keys = Vec::new();
        let mut refused = 0;
        while keys.len() < count + sample.deleted() {
            let key = sample.key(random);
            match plain.insert(key, (random.number() as u32).max(1)) {
                Ok(_) => keys.push(key),
                Err(4) => {}
                Err(_) => refused += 1,
            }
        }
        random.shuffle(&mut keys);
        keys[count..].iter().for_each(|&key| assert!(plain.delete(key).is_ok()));
        let (pages, depth) = plain.extent();
        let text = format!("{}: {} on {} pages", shown(&sample.widths), sample.shown(), grouped(pages));
        println!("{text}, T = {depth}, {refused} inserts refused");
        let mut records = vec![[0; 12]; count];
        let all = plain.query([None; 4], records.as_flattened_mut());
        assert_eq!(all, Ok((count, count, pages)));
        let (state, dir, bytes) = plain.image();
        let lent = Lent { state, dir, pages: bytes };
        assert!(builds.iter().all(|build| build.check(&lent)));
        Forms {
            sample,
            builds,
            lent: Box::leak(Box::new(lent)),
            plain: Box::leak(Box::new(plain)),
            columns: Box::leak(Box::new(Columns::new(&records))),
            database: database::of_records(&records),
            records: records.leak(),
        }
    }
    /// So many keys of records in random order, each of them once before one comes again.
    pub fn keys(&self, random: &mut Random, count: usize) -> Vec<Key> {
        let mut keys = Vec::new();
        while keys.len() < count {
            keys.extend(self.inputs(random).iter().map(|input| input.0));
        }
        keys.truncate(count);
        keys
    }

    /// The records in random order.
    pub fn inputs(&self, random: &mut Random) -> Vec<Input> {
        let input = |record: &Record| (packed::key(record), packed::payload(record));
        let mut inputs: Vec<Input> = self.records.iter().map(input).collect();
        random.shuffle(&mut inputs);
        inputs
    }
}
