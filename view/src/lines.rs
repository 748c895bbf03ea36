//! The lines of `stock` (document 01, "The program `stock` reads lines from standard input").
use mdeh::Shape;

/// What a line asks for, with its numbers as they came: the store judges them.
#[derive(Clone, Debug, PartialEq, Eq)]
pub enum Command {
    Shape(Shape),
    /// A key and its payload.
    Put([i32; 4], u32),
    Cut([i32; 4]),
    /// A value for each attribute, or none for a free one.
    List([Option<i32>; 4]),
}

/// The command of a line without its newline, to a store with so many attributes. Values may have a minus sign where
/// `minus` says so; `stock` takes none. None for a bad line.
pub fn command(line: &[u8], attributes: usize, minus: bool) -> Option<Command> {
    let mut fields = line.split(|&byte| byte == b' ');
    let word = fields.next()?;
    let fields: Vec<&[u8]> = fields.collect();
    let value = |field: &[u8]| value(field, minus);
    match word {
        b"shape" => shape(&all(&fields, number)?),
        b"put" if fields.len() == attributes + 1 => {
            let (payload, values) = fields.split_last()?;
            Some(Command::Put(four(&all(values, value)?, 0), number(payload)?))
        }
        b"cut" if fields.len() == attributes => Some(Command::Cut(four(&all(&fields, value)?, 0))),
        b"list" if fields.len() == attributes => {
            let wanted = |field: &[u8]| if field == b"*" { Some(None) } else { value(field).map(Some) };
            Some(Command::List(four(&all(&fields, wanted)?, None)))
        }
        _ => None,
    }
}

/// "A `shape` line has as many widths as its d says; with d outside 1–4 it prints `no 1`, whichever numbers follow":
/// the shape is then one that Fresh refuses.
fn shape(numbers: &[u32]) -> Option<Command> {
    let (&attributes, rest) = numbers.split_first()?;
    match rest.split_last() {
        _ if !(1..=4).contains(&attributes) => Some(Command::Shape(Shape::new(&[], 0))),
        Some((&capacity, widths)) if widths.len() == attributes as usize => {
            Some(Command::Shape(Shape::new(widths, capacity)))
        }
        _ => None,
    }
}

/// A decimal number below 2^32.
fn number(field: &[u8]) -> Option<u32> {
    if !field.iter().all(u8::is_ascii_digit) {
        return None;
    }
    // digits alone: an empty field and a number of 2^32 or more do not parse
    std::str::from_utf8(field).ok()?.parse().ok()
}

/// A value: such a number, behind a minus sign if there may be one. The greatest and the least `i32` are no value of
/// any attribute and stand for the numbers past them.
fn value(field: &[u8], minus: bool) -> Option<i32> {
    match field.strip_prefix(b"-") {
        Some(size) if minus => number(size).map(|size| i32::try_from(-i64::from(size)).unwrap_or(i32::MIN)),
        _ => number(field).map(|size| i32::try_from(size).unwrap_or(i32::MAX)),
    }
}

/// What each field says, if all are of this form.
fn all<T>(fields: &[&[u8]], form: impl Fn(&[u8]) -> Option<T>) -> Option<Vec<T>> {
    fields.iter().map(|field| form(field)).collect()
}

/// One thing for each of the four attributes.
fn four<T: Copy>(items: &[T], rest: T) -> [T; 4] {
    std::array::from_fn(|j| items.get(j).copied().unwrap_or(rest))
}
