//! Queries beside the plain store, scans and SQLite.
use crate::database;
use crate::inputs::repeated;
use crate::lists::{average, compare, form, Form};
use crate::measure::Table;
use crate::packed::ATTRIBUTES;
use crate::records::{Forms, Key};
use crate::scans::packed_query;
use crate::step::{Step, COLUMNS, PACKED, PLAIN, SQLITE};
use mdeh_tests::random::Random;

/// How many queries a row has where one attribute is given, and where more are, which takes less time a query.
const ONE_GIVEN: usize = 400;
const MORE_GIVEN: usize = 4_000;

/// How many queries a row has that asks the same again and again.
const FEW: usize = 16;

/// How many sets of attributes a query can give. Attribute j is in set n if bit j of n is 1.
const SUBSETS: usize = 1 << ATTRIBUTES;

type Query = [Option<i32>; 4];

/// Queries that give the values of stored keys, in random order, for each set of attributes.
pub fn rows(table: &mut Table, random: &mut Random, forms: Forms) {
    for subset in 0..SUBSETS {
        let count = [1, ONE_GIVEN, MORE_GIVEN, MORE_GIVEN][given(subset).len()];
        row(table, forms, subset, name(subset), queries(random, forms, subset, count).leak());
    }
}

/// A few queries that give all attributes, which the processor learns.
pub fn repeated_row(table: &mut Table, random: &mut Random, forms: Forms) {
    let (subset, name) = (SUBSETS - 1, format!("{}, {FEW} repeated", name(SUBSETS - 1)));
    let queries = queries(random, forms, subset, FEW);
    row(table, forms, subset, name, repeated(&queries, MORE_GIVEN));
}

/// The names of all rows.
pub fn names() -> impl Iterator<Item = String> {
    (0..SUBSETS).map(name)
}

fn name(subset: usize) -> String {
    let given: Vec<String> = given(subset).iter().map(usize::to_string).collect();
    match given.len() {
        0 => "query, nothing given".into(),
        1 => format!("query, attribute {} given", given[0]),
        _ => format!("query, attributes {} given", given.join(", ")),
    }
}

/// The attributes of a subset.
fn given(subset: usize) -> Vec<usize> {
    (0..ATTRIBUTES).filter(|j| subset >> j & 1 == 1).collect()
}

fn queries(random: &mut Random, forms: Forms, subset: usize, count: usize) -> Vec<Query> {
    let wanted = |key: Key| [0, 1, 2, 3].map(|j| (subset >> j & 1 == 1).then_some(key[j]));
    forms.keys(random, count).into_iter().map(wanted).collect()
}

/// Queries that give the attributes of a subset; the output has room for all records.
fn row(table: &mut Table, forms: Forms, subset: usize, name: String, queries: &'static [Query]) {
    if !table.has(&name) {
        return;
    }
    let Forms { sample, builds, lent, plain, records, columns, database } = forms;
    let mut all: Vec<Form<Query>> = builds
        .iter()
        .map(|build| form(build.name, |query, out| build.query(lent, query, out).total))
        .collect();
    all.push(form(PLAIN, |query, out| plain.query(query, out).expect("accepted").1 as u64));
    all.push(form(PACKED, |query, out| packed_query(records, query, out)));
    all.push(form(COLUMNS, |query, out| columns.query(query, out)));
    if let Some(database) = database {
        let select = database::select(database, &given(subset));
        all.push(form(SQLITE, move |query, out| database::query(&select, query, out)));
    }
    let out = vec![0; 12 * sample.records];
    compare(&name, &mut all, queries, &out);
    let found = Some(average(queries, |query| plain.query(query, &mut [])));
    table.answering(Step { found, ..Step::call(name, sample.shown()) }, queries, out, all);
}
