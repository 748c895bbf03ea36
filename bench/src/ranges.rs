//! Ranges beside the plain store, scans and SQLite.
use crate::database;
use crate::lists::{average, compare, form, Form};
use crate::measure::Table;
use crate::packed::{Intervals, ATTRIBUTES};
use crate::records::{Forms, Key};
use crate::scans::packed_range;
use crate::step::{Step, COLUMNS, PACKED, PLAIN, SQLITE};
use mdeh_tests::random::Random;

/// What a range asks of an attribute.
#[derive(Clone, Copy, PartialEq)]
pub enum Part {
    Free,
    /// one value, the interval with equal ends
    One,
    /// an interval of so many of 64 parts of the values
    Of64(usize),
}

/// A row: its name, what its ranges ask, and how many there are.
type Kind = (&'static str, [Part; ATTRIBUTES], usize);

/// Of a gateway: a code, and some of the releases.
const GATEWAYS: Kind =
    ("range, one value of attribute 0, 5/64 of attribute 2", [Part::One, Part::Free, Part::Of64(5)], 400);

/// One attribute, with narrow intervals and a wide one, and all of them.
const OTHERS: [Kind; 4] = [
    ("range, 1/32 of attribute 0", [Part::Of64(2), Part::Free, Part::Free], 100),
    ("range, 5/64 of attribute 2", [Part::Free, Part::Free, Part::Of64(5)], 100),
    ("range, 1/2 of attribute 2", [Part::Free, Part::Free, Part::Of64(32)], 12),
    ("range, 1/4 of each attribute", [Part::Of64(16); ATTRIBUTES], 100),
];

/// Ranges for a value of attribute 0 and an interval of attribute 2.
pub fn rows(table: &mut Table, random: &mut Random, forms: Forms) {
    row(table, random, forms, GATEWAYS);
}

/// Ranges of other kinds.
pub fn other_rows(table: &mut Table, random: &mut Random, forms: Forms) {
    OTHERS.into_iter().for_each(|kind| row(table, random, forms, kind));
}

/// The names of all rows.
pub fn names() -> impl Iterator<Item = String> {
    [GATEWAYS].into_iter().chain(OTHERS).map(|(name, ..)| name.into())
}

/// Ranges about the values of stored keys, in random order; the output has room for all records.
fn row(table: &mut Table, random: &mut Random, forms: Forms, (name, parts, count): Kind) {
    if !table.has(name) {
        return;
    }
    let ranges: Vec<Intervals> =
        forms.keys(random, count).into_iter().map(|key| intervals(random, forms, parts, key)).collect();
    let ranges: &'static [Intervals] = ranges.leak();
    let Forms { sample, builds, lent, plain, records, columns, database } = forms;
    let mut all: Vec<Form<Intervals>> = Vec::new();
    for build in builds.iter().filter(|build| build.has_range()) {
        all.push(form(build.name, |range, out| build.range(lent, range, out).total));
    }
    all.push(form(PLAIN, |range, out| plain.range(range, out).expect("accepted").1 as u64));
    all.push(form(PACKED, |range, out| packed_range(records, range, out)));
    all.push(form(COLUMNS, |range, out| columns.range(range, out)));
    if let Some(database) = database {
        let select = database::select_range(database, parts);
        all.push(form(SQLITE, move |range, out| database::range(&select, parts, range, out)));
    }
    let out = vec![0; 12 * sample.records];
    compare(name, &mut all, ranges, &out);
    let found = Some(average(ranges, |range| plain.range(range, &mut [])));
    table.answering(Step { found, ..Step::call(name, sample.shown()) }, ranges, out, all);
}

/// The intervals of a range, each with the key's value somewhere in it.
fn intervals(random: &mut Random, forms: Forms, parts: [Part; ATTRIBUTES], key: Key) -> Intervals {
    let mut interval = |j: usize| {
        let (below, value) = (forms.sample.below[j], key[j] as usize);
        let length = match parts[j] {
            Part::Free => return None,
            Part::One => 1,
            Part::Of64(part) => (below * part / 64).max(1),
        };
        let low = value.saturating_sub(random.below(length)).min(below - length);
        Some((low as i32, (low + length - 1) as i32))
    };
    [interval(0), interval(1), interval(2), None]
}
