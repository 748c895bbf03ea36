//! Single inserts: how long most of them take, how long the longest do, and one that doubles the directory from depth 0
//! to 12.
use crate::builds::{Build, Lent};
use crate::database;
use crate::records::{Forms, Input, Sample};
use crate::sqlite::{Database, Statement};
use crate::step::{PLAIN, SQLITE};
use crate::store::Store;
use mdeh_tests::random::Random;
use std::time::Instant;

/// How often each insert is timed; the best time counts.
const ROUNDS: usize = 15;
const DOUBLINGS: usize = 101;

/// A form's times in nanoseconds, less what the clock takes: what 50, 99 and 99.9 of 100 inserts take at most, the
/// longest, and the one that doubles the directory from depth 0 to 12.
pub struct Tail {
    pub name: &'static str,
    pub times: [f64; 5],
}

/// What the times are, in the same order.
pub const TIMES: [&str; 5] = ["p50", "p99", "p99.9", "longest", "T from 0 to 12"];

/// A store that records are inserted into.
trait Target {
    /// Has no record any more.
    fn empty(&mut self);
    fn insert(&mut self, input: Input);
}

type Named = (&'static str, Box<dyn Target>);

struct Proved {
    build: Build,
    sample: Sample,
    lent: Lent,
}

struct Plain {
    empty: Store,
    store: Store,
}

struct Sqlite {
    database: &'static Database,
    insert: Statement,
}

impl Target for Proved {
    fn empty(&mut self) {
        assert!(self.build.fresh(self.sample.shape(), &mut self.lent));
    }

    fn insert(&mut self, (key, payload): Input) {
        assert_eq!(self.build.insert(&mut self.lent, key, payload), 1);
    }
}

impl Target for Plain {
    fn empty(&mut self) {
        self.store = self.empty.clone();
    }

    fn insert(&mut self, (key, payload): Input) {
        assert!(self.store.insert(key, payload).is_ok());
    }
}

impl Target for Sqlite {
    fn empty(&mut self) {
        self.database.run("ROLLBACK; BEGIN");
    }

    fn insert(&mut self, (key, payload): Input) {
        self.insert.run(database::numbers(key, payload), |_| {});
    }
}

/// The times of all forms, on the records in random order.
pub fn tails(random: &mut Random, forms: Forms) -> Vec<Tail> {
    let mut targets = targets(forms);
    let inserts = best(&mut targets, &[], &forms.inputs(random), ROUNDS);
    let (stored, last) = deep(forms.sample);
    let doubling = best(&mut targets, &stored, &[last], DOUBLINGS);
    let clock = clock();
    let tail = |(((name, _), mut times), doubling): ((_, Vec<f64>), Vec<f64>)| {
        times.sort_by(f64::total_cmp);
        let [half, most, nearly_all] = [500, 990, 999].map(|n| times[times.len() * n / 1000]);
        let times = [half, most, nearly_all, times[times.len() - 1], doubling[0]];
        Tail { name, times: times.map(|time| time - clock) }
    };
    targets.into_iter().zip(inserts).zip(doubling).map(tail).collect()
}

/// Each target's best times of some inserts, one after the other behind those of the stored records. All targets are
/// timed in turns.
fn best(targets: &mut [Named], stored: &[Input], timed: &[Input], rounds: usize) -> Vec<Vec<f64>> {
    let mut all = vec![vec![f64::INFINITY; timed.len()]; targets.len()];
    for _ in 0..rounds {
        for ((_, target), times) in targets.iter_mut().zip(&mut all) {
            target.empty();
            stored.iter().for_each(|&input| target.insert(input));
            let own = timed.iter().map(|&input| time(target.as_mut(), input));
            times.iter_mut().zip(own).for_each(|(best, time)| *best = best.min(time));
        }
    }
    all
}

fn targets(forms: Forms) -> Vec<Named> {
    let sample = forms.sample;
    let mut all: Vec<Named> = Vec::new();
    for &build in forms.builds {
        all.push((build.name, Box::new(Proved { build, sample, lent: sample.proved(&build) })));
    }
    all.push((PLAIN, Box::new(Plain { empty: sample.plain(), store: sample.plain() })));
    if let Some(database) = database::of_records(&[]) {
        database.run("BEGIN");
        all.push((SQLITE, Box::new(Sqlite { database, insert: database.prepare(database::INSERT) })));
    }
    all
}

/// Records that fill one page, and one more that differs from all of them in split bit 11 first; the first 12 split
/// steps take four bits of each attribute.
fn deep(sample: Sample) -> (Vec<Input>, Input) {
    let stored: Vec<Input> = (0..sample.shape().capacity).map(|value| ([value as i32, 0, 0, 0], 1)).collect();
    let last = ([0, 0, 1 << (sample.widths[2] - 4), 0], 1);
    let mut store = sample.plain();
    let mut depth = |&(key, payload): &Input| store.insert(key, payload).expect("accepted");
    assert!(stored.iter().all(|input| depth(input) == 0) && depth(&last) == 12);
    (stored, last)
}

/// The time of an insert, with what the clock itself takes.
fn time(target: &mut dyn Target, input: Input) -> f64 {
    let start = Instant::now();
    target.insert(input);
    start.elapsed().as_nanos() as f64
}

/// What the clock itself takes.
fn clock() -> f64 {
    let times = (0..10_000).map(|_| Instant::now().elapsed().as_nanos() as f64);
    times.fold(f64::INFINITY, f64::min)
}
