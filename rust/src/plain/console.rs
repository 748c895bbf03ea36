//! The program `stock` in plain Rust (document 01, "Proof table and the printed run"): a line, and the reply to it.
use super::model::Model;
use crate::host::{Refused, Shape};

/// "It lends 4,096 words, 32,768 page bytes and 256 output records."
const WORDS: usize = 4096;
const BYTES: usize = 32768;
const OUTPUT: usize = 256 * 12;

/// The store of the last accepted `shape`.
#[derive(Default)]
pub struct Console {
    model: Option<Model>,
}

impl Console {
    /// The reply to a line, which has no newline; with its newlines.
    pub fn reply(&mut self, line: &[u8]) -> String {
        self.answer(line).unwrap_or_else(|| "bad line\n".to_owned())
    }

    /// None for a bad line.
    fn answer(&mut self, line: &[u8]) -> Option<String> {
        let mut fields = line.split(|&byte| byte == b' ');
        let word = fields.next()?;
        let items: Vec<Option<u32>> = fields.map(item).collect::<Option<_>>()?;
        if word == b"shape" {
            return self.shape(&numbers(&items)?);
        }
        let model = self.model.as_mut()?;
        let d = model.shape.attributes as usize;
        match word {
            b"put" => {
                let values = numbers(&items)?;
                (values.len() == d + 1).then(|| changed(number(model.insert(key(&values[..d]), values[d]))))
            }
            b"cut" => {
                let values = numbers(&items)?;
                (values.len() == d).then(|| changed(number(model.delete(key(&values)))))
            }
            b"list" => {
                (items.len() == d).then(|| listed(model, four(&items, None).map(|item| item.map(value))))
            }
            _ => None,
        }
    }

    /// "A `shape` line has as many widths as its d says; with d outside 1–4 it prints `no 1`".
    fn shape(&mut self, numbers: &[u32]) -> Option<String> {
        let attributes = *numbers.first()?;
        if !(1..=4).contains(&attributes) {
            return Some(changed(Err(1)));
        }
        let d = attributes as usize;
        if numbers.len() != d + 2 {
            return None;
        }
        let shape =
            Shape { attributes, widths: four(&numbers[1..=d], 0), capacity: numbers[d + 1], signs: 0 };
        let fresh = Model::fresh(shape, WORDS, BYTES).map(|model| self.model = Some(model));
        Some(changed(number(fresh)))
    }
}

/// A decimal number below 2^32, or none for `*`; no item for a field of another form.
fn item(field: &[u8]) -> Option<Option<u32>> {
    if field == b"*" {
        return Some(None);
    }
    if field.is_empty() || !field.iter().all(u8::is_ascii_digit) {
        return None;
    }
    let number = field.iter().fold(0u64, |n, digit| (10 * n + u64::from(digit - b'0')).min(1 << 32));
    u32::try_from(number).ok().map(Some)
}

/// The items as numbers, if none is `*`.
fn numbers(items: &[Option<u32>]) -> Option<Vec<u32>> {
    items.iter().copied().collect()
}

/// A number as a value: one of 2^31 or more is past every bound in either form.
fn value(number: u32) -> i32 {
    number as i32
}

/// The key of these values.
fn key(values: &[u32]) -> [i32; 4] {
    four(values, 0).map(value)
}

/// One thing for each of the four attributes.
fn four<T: Copy>(items: &[T], rest: T) -> [T; 4] {
    std::array::from_fn(|j| items.get(j).copied().unwrap_or(rest))
}

/// The number of a refusal; neither depth nor attribute is printed.
fn number<T>(answer: Result<T, Refused>) -> Result<(), u32> {
    answer.map(|_| ()).map_err(|refused| refused.number)
}

fn changed(answer: Result<(), u32>) -> String {
    answer.map_or_else(|number| format!("no {number}\n"), |()| "ok\n".to_owned())
}

/// "the records (values, payload), then `=`, total, reads".
fn listed(model: &Model, query: [Option<i32>; 4]) -> String {
    let mut out = [0; OUTPUT];
    match model.query(query, &mut out) {
        Err(Refused { number, .. }) => format!("no {number}\n"),
        Ok((written, total, reads)) => {
            let records = out.chunks(12).take(written as usize);
            let mut text: String =
                records.map(|bytes| record(model.shape.attributes as usize, bytes)).collect();
            text += &format!("= {total} {reads}\n");
            text
        }
    }
}

fn record(d: usize, bytes: &[u8]) -> String {
    let values =
        bytes.chunks(2).take(d).map(|value| format!("{} ", u16::from_le_bytes([value[0], value[1]])));
    let payload = u32::from_le_bytes([bytes[8], bytes[9], bytes[10], bytes[11]]);
    format!("{}{payload}\n", values.collect::<String>())
}
