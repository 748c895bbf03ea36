//! Save and load beside the plain store's.
use crate::measure::{answers, Answers, Table};
use crate::records::Forms;
use crate::step::{Step, PLAIN};

/// All records saved into an output that has room for them, and a store made of them.
pub fn rows(table: &mut Table, forms: Forms) {
    let Forms { sample, lent, plain, records, .. } = forms;
    let builds = || forms.builds.iter().filter(|build| build.has_files());
    let out = vec![0; 12 * records.len() + 24];
    let mut saves: Vec<Answers<(), Vec<u8>>> = Vec::new();
    for build in builds() {
        saves.push(answers(build.name, |_, out: &mut Vec<u8>| build.save(lent, out)));
    }
    saves.push(answers(PLAIN, |_, out: &mut Vec<u8>| plain.save(out).expect("accepted") as u64));
    let step = |name| Step::each(name, sample.shown(), "record", sample.records);
    table.compared(step("save"), &[()], out.clone(), saves);
    let mut file = out;
    plain.save(&mut file).expect("accepted");
    let file: &'static [u8] = file.leak();
    let mut loads: Vec<Answers<(), ()>> = Vec::new();
    for build in builds() {
        let (mut own, mut again) = (lent.clone(), vec![0; file.len()]);
        assert!(build.load(file, &mut own) == 1 && build.check(&own));
        assert!(build.save(&own, &mut again) == file.len() as u64 && again == file, "other records");
        loads.push(answers(build.name, move |_, _| build.load(file, &mut own)));
    }
    let mut own = plain.clone();
    loads.push(answers(PLAIN, move |_, _| own.load(file).is_ok().into()));
    table.compared(step("load"), &[()], (), loads);
}
