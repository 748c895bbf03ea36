//! Forms that list records: compared with each other before they are timed.
use crate::measure::{answers, Answers};
use crate::packed::Record;
use crate::step::Found;
use std::fmt::Debug;
use std::slice;

/// How many of a row's inputs are asked of all forms and compared.
const COMPARED: usize = 400;

/// A form of queries or ranges of type I, into an output.
pub type Form<I> = Answers<I, Vec<u8>>;

/// A form by how it writes the records that an input wants, and how many these are.
pub fn form<I: Copy>(name: &'static str, mut ask: impl FnMut(I, &mut [u8]) -> u64 + 'static) -> Form<I> {
    answers(name, move |&input, out: &mut Vec<u8>| ask(input, out))
}

/// Panics unless all forms find the same records, whatever their order.
pub fn compare<I: Copy + Debug>(name: &str, forms: &mut [Form<I>], inputs: &[I], out: &[u8]) {
    let mut out = out.to_vec();
    for input in &inputs[..inputs.len().min(COMPARED)] {
        let mut found = forms.iter_mut().map(|(_, all)| {
            let total = all(slice::from_ref(input), &mut out) as usize;
            let mut records: Vec<Record> = out.as_chunks().0[..total].to_vec();
            records.sort();
            records
        });
        let first = found.next();
        assert!(found.all(|records| Some(records) == first), "{name}, {input:?}: other records");
    }
}

/// What inputs find on average: written, total and reads of each are asked.
pub fn average<I: Copy>(inputs: &[I], ask: impl Fn(I) -> Result<(usize, usize, usize), u32>) -> Found {
    let found = inputs.iter().map(|&input| ask(input).expect("accepted"));
    let (total, reads) = found.fold((0, 0), |(t, r), (_, total, reads)| (t + total, r + reads));
    let each = |sum: usize| sum as f64 / inputs.len() as f64;
    Found { records: each(total), reads: each(reads) }
}
