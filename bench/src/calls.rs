//! The store's calls on one sample of records, beside the other forms.
use crate::builds::Build;
use crate::measure::{answers, Table};
use crate::records::{Forms, Sample};
use crate::step::{Step, PLAIN, SQLITE};
use crate::{changes, files, lookups, queries, ranges};
use mdeh_tests::random::Random;

/// Adds the rows of all calls; the records, if there is a row.
pub fn rows(
    table: &mut Table,
    random: &mut Random,
    builds: &'static [Build],
    sample: Sample,
) -> Option<Forms> {
    let names = ["lookup, hit", "lookup, miss", "check", "insert", "delete", "save", "load"];
    let mut names = names.map(String::from).to_vec();
    names.extend(queries::names().chain(ranges::names()));
    if !names.iter().any(|name| table.has(name)) {
        return None;
    }
    let forms = Forms::new(random, builds, sample);
    lookups::rows(table, random, forms);
    queries::rows(table, random, forms);
    ranges::rows(table, random, forms);
    check(table, forms);
    changes::rows(table, random, forms);
    files::rows(table, forms);
    Some(forms)
}

/// Whether the store is sound; of SQLite, its own check of tables and indices.
fn check(table: &mut Table, forms: Forms) {
    let Forms { sample, builds, lent, plain, database, .. } = forms;
    let mut all: Vec<_> = builds
        .iter()
        .map(|build| answers(build.name, move |_: &(), _: &mut ()| u64::from(build.check(lent))))
        .collect();
    all.push(answers(PLAIN, |_, _| u64::from(plain.check())));
    if let Some(database) = database {
        let pragma = database.prepare("PRAGMA integrity_check");
        let answer = move |_: &(), _: &mut ()| {
            let mut passes = false;
            pragma.run([], |row| passes = row.text(0) == "ok");
            u64::from(passes)
        };
        all.push(answers(SQLITE, answer));
    }
    table.compared(Step::each("check", sample.shown(), "record", sample.records), &[()], (), all);
}
