//! Insert of all records in random order into a store without records, and delete of a tenth of them, another one in
//! each run, beside the plain store and SQLite.
use crate::builds::{Build, Lent};
use crate::database;
use crate::measure::{Form, Table};
use crate::records::{Forms, Input};
use crate::step::{Step, PLAIN, SQLITE};
use crate::store::Store;
use mdeh_tests::random::Random;
use std::cell::RefCell;
use std::rc::Rc;

pub fn rows(table: &mut Table, random: &mut Random, forms: Forms) {
    let inputs: &'static [Input] = forms.inputs(random).leak();
    if table.has("insert") {
        table.changing(Step::call("insert", forms.sample.shown()), &[inputs.len()], inserts(forms, inputs));
    }
    if table.has("delete") {
        let parts: Vec<&'static [Input]> = inputs.chunks_exact(forms.sample.deleted()).collect();
        let lengths: Vec<usize> = parts.iter().map(|part| part.len()).collect();
        table.changing(Step::call("delete", forms.sample.shown()), &lengths, deletes(forms, parts.leak()));
    }
}

/// Panics unless a proved store has the plain one's records, in split order.
fn assert_same(build: &Build, lent: &Lent, plain: &Store, records: usize) {
    let [mut own, mut other] = [vec![0; 12 * records], vec![0; 12 * records]];
    let found = build.query(lent, [None; 4], &mut own);
    let (written, total, reads) = plain.query([None; 4], &mut other).expect("accepted");
    let numbers = [written, total, reads].map(|number| number as u64);
    assert_eq!((found.number, [found.written, found.total, found.reads]), (0, numbers));
    assert!(own == other, "other records");
}

/// A form over memory that is made ready by one function and changed by another.
fn changing<M: 'static>(
    name: &'static str,
    memory: M,
    ready: impl Fn(&mut M) + 'static,
    run: impl Fn(&mut M, usize) -> u64 + 'static,
) -> Form {
    let memory = Rc::new(RefCell::new(memory));
    let own = memory.clone();
    Form {
        name,
        ready: Some(Box::new(move |_| ready(&mut own.borrow_mut()))),
        run: Box::new(move |part| run(&mut memory.borrow_mut(), part)),
    }
}

/// How many of some inputs are accepted.
fn accepted(inputs: &[Input], call: impl FnMut(&Input) -> u64) -> u64 {
    inputs.iter().map(call).sum()
}

/// Inserts into a store without records.
fn inserts(forms: Forms, inputs: &'static [Input]) -> Vec<Form> {
    let Forms { sample, builds, .. } = forms;
    let empty = sample.plain();
    let mut filled = empty.clone();
    inputs.iter().for_each(|&(key, payload)| assert!(filled.insert(key, payload).is_ok()));
    let mut all = Vec::new();
    for build in builds {
        let mut lent = sample.proved(build);
        assert_eq!(accepted(inputs, |input| build.insert(&mut lent, input.0, input.1)), inputs.len() as u64);
        assert_same(build, &lent, &filled, inputs.len());
        all.push(changing(
            build.name,
            lent,
            move |lent| assert!(build.fresh(sample.shape(), lent)),
            move |lent, _| accepted(inputs, |input| build.insert(lent, input.0, input.1)),
        ));
    }
    all.push(changing(
        PLAIN,
        sample.plain(),
        move |store| *store = empty.clone(),
        |store, _| accepted(inputs, |input| store.insert(input.0, input.1).is_ok().into()),
    ));
    if let Some(database) = database::of_records(&[]) {
        let insert = database.prepare(database::INSERT);
        database.run("BEGIN");
        inputs.iter().for_each(|input| insert.run(database::numbers(input.0, input.1), |_| {}));
        assert_eq!(database::count(database), inputs.len());
        let run = move |_: &mut (), _| {
            accepted(inputs, |input| {
                insert.run(database::numbers(input.0, input.1), |_| {});
                1
            })
        };
        // what an earlier run inserted is taken back
        all.push(changing(SQLITE, (), |_| database.run("ROLLBACK; BEGIN"), run));
    }
    all
}

/// Deletes from the store of all records.
fn deletes(forms: Forms, parts: &'static [&'static [Input]]) -> Vec<Form> {
    let Forms { builds, lent, plain, records, .. } = forms;
    let mut store = plain.clone();
    parts[0].iter().for_each(|input| assert!(store.delete(input.0).is_ok()));
    let mut all = Vec::new();
    for build in builds {
        let mut own = lent.clone();
        assert_eq!(accepted(parts[0], |input| build.delete(&mut own, input.0)), parts[0].len() as u64);
        assert_same(build, &own, &store, records.len());
        all.push(changing(
            build.name,
            own,
            |own| own.clone_from(lent),
            |own, part| accepted(parts[part], |input| build.delete(own, input.0)),
        ));
    }
    all.push(changing(
        PLAIN,
        plain.clone(),
        |store| *store = plain.clone(),
        |store, part| accepted(parts[part], |input| store.delete(input.0).is_ok().into()),
    ));
    if let Some(database) = database::of_records(records) {
        let delete = database.prepare(database::DELETE);
        database.run("BEGIN");
        parts[0].iter().for_each(|input| delete.run(database::key(input.0), |_| {}));
        assert_eq!(database::count(database), records.len() - parts[0].len());
        let run = move |_: &mut (), part: usize| {
            accepted(parts[part], |input| {
                delete.run(database::key(input.0), |_| {});
                1
            })
        };
        all.push(changing(SQLITE, (), |_| database.run("ROLLBACK; BEGIN"), run));
    }
    all
}
