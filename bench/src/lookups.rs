//! Lookups beside the plain store and SQLite.
use crate::database;
use crate::inputs::repeated;
use crate::measure::{answers, Table};
use crate::records::{Forms, Key};
use crate::step::{Step, PLAIN, SQLITE};
use mdeh_tests::random::Random;

/// How many lookups a row has, and how many of one that asks the same again and again.
const LOOKUPS: usize = 20_000;
const FEW: usize = 256;

/// Lookups of stored keys and of others, in random order.
pub fn rows(table: &mut Table, random: &mut Random, forms: Forms) {
    let stored: &[Key] = forms.keys(random, LOOKUPS).leak();
    row(table, forms, "lookup, hit", stored);
    let mut absent = Vec::new();
    while absent.len() < LOOKUPS {
        let key = forms.sample.key(random);
        absent.extend(forms.plain.lookup(key).is_err().then_some(key));
    }
    row(table, forms, "lookup, miss", absent.leak());
}

/// Lookups of a few stored keys, which the processor learns.
pub fn repeated_row(table: &mut Table, random: &mut Random, forms: Forms) {
    let keys = forms.keys(random, FEW);
    row(table, forms, &format!("lookup, hit, {FEW} repeated"), repeated(&keys, LOOKUPS));
}

/// The payloads of keys; 5 for an absent one.
fn row(table: &mut Table, forms: Forms, name: &str, keys: &'static [Key]) {
    let Forms { sample, builds, lent, plain, database, .. } = forms;
    let number = |found: Result<u32, u32>| u64::from(found.unwrap_or_else(|number| number));
    let mut all: Vec<_> = builds
        .iter()
        .map(|build| answers(build.name, move |&key: &Key, _: &mut ()| number(build.lookup(lent, key))))
        .collect();
    let payload = |key| plain.lookup(key).map(|(payload, _)| payload).map_err(|refused| refused.number);
    all.push(answers(PLAIN, move |&key, _| number(payload(key))));
    if let Some(database) = database {
        let select = database.prepare(database::LOOKUP);
        let answer = move |&key: &Key, _: &mut ()| {
            let mut found = 5;
            select.run(database::key(key), |row| found = row.number(0) as u64);
            found
        };
        all.push(answers(SQLITE, answer));
    }
    table.compared(Step::call(name, sample.shown()), keys, (), all);
}
