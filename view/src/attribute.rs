//! Attributes as people call them: a name, and the values that encodings stand for.
use mdeh::{rank, spread, Shape};
use std::ops::Range;

/// The most characters of a name, so that every picture stays small.
const LONGEST: usize = 24;

/// What an argument says of an attribute: `NAME[:from=N[,to=M]]`.
#[derive(Clone, Debug, PartialEq, Eq)]
pub struct Spec {
    pub name: String,
    pub from: Option<i64>,
    pub to: Option<i64>,
}

/// An attribute of a store. The ranks of `count` values are spread over its encodings, so that values and encodings have
/// one order. With as many values as encodings, each rank is its encoding.
#[derive(Clone, Debug, PartialEq, Eq)]
pub struct Attribute {
    pub name: String,
    /// in bits: it has 2^width encodings
    width: u32,
    /// the value of rank 0
    from: i64,
    /// how many values it has, from 1 to 2^width
    pub count: i64,
}

impl Spec {
    /// What a text says. None for one of another form, for a name that is empty, too long, or has a control character
    /// or `=`, and for a last value below the first.
    pub fn parse(text: &str) -> Option<Spec> {
        let (name, values) = match text.split_once(':') {
            Some((name, values)) => (name, Some(values.strip_prefix("from=")?)),
            None => (text, None),
        };
        let printed = |c: char| !c.is_control() && !matches!(c, '=' | '\u{fffe}' | '\u{ffff}');
        if name.is_empty() || name.chars().count() > LONGEST || !name.chars().all(printed) {
            return None;
        }
        let (from, to) = match values.map(|values| values.split_once(",to=").ok_or(values)) {
            None => (None, None),
            Some(Err(from)) => (Some(integer(from)?), None),
            Some(Ok((from, to))) => (Some(integer(from)?), Some(integer(to)?)),
        };
        let rises = from.zip(to).is_none_or(|(from, to)| from <= to);
        rises.then(|| Spec { name: name.to_owned(), from, to })
    }

    /// The attribute j of a shape that this tells of; otherwise why its values do not fit.
    pub fn attribute(&self, shape: Shape, j: usize) -> Result<Attribute, String> {
        let Attribute { width, from, count: room, .. } = Attribute::plain(shape, j);
        let from = self.from.unwrap_or(from);
        let count = self.to.map_or(room, |to| to - from + 1);
        if count > room {
            let name = &self.name;
            return Err(format!("{name}: {count} values do not fit width {width}, which has {room}"));
        }
        Ok(Attribute { name: self.name.clone(), width, from, count })
    }
}

impl Attribute {
    /// The attribute j of a shape by its number, with the store's values.
    pub fn plain(shape: Shape, j: usize) -> Attribute {
        let (least, width) = (shape.values(j).start().to_owned(), shape.widths[j]);
        Attribute { name: format!("attribute {j}"), width, from: least.into(), count: 1 << width }
    }

    /// The greatest encoding; the least is 0.
    pub fn last(&self) -> u32 {
        (1 << self.width) - 1
    }

    /// The least and the greatest value.
    pub fn ends(&self) -> (i64, i64) {
        (self.from, self.from + self.count - 1)
    }

    /// The encoding of a value, if it is one of the attribute.
    pub fn encoding(&self, value: i64) -> Option<u32> {
        let rank = value - self.from;
        (0..self.count).contains(&rank).then(|| spread(rank as u32, self.count as u32, self.width))
    }

    /// The ranks whose encodings are in an interval, both ends included.
    pub fn ranks(&self, (low, high): (u32, u32)) -> Range<i64> {
        let least = |encoding: u32| i64::from(rank(encoding, self.count as u32, self.width));
        least(low)..least(high + 1)
    }

    /// The least and the greatest value whose encodings are in an interval, both ends included, if there is one.
    pub fn values(&self, encodings: (u32, u32)) -> Option<(i64, i64)> {
        let ranks = self.ranks(encodings);
        (!ranks.is_empty()).then_some((self.from + ranks.start, self.from + ranks.end - 1))
    }

    /// The values of an interval of encodings in words: "code 12..15", "code 30" for one, "no code" for none.
    pub fn told(&self, encodings: (u32, u32)) -> String {
        match self.values(encodings) {
            None => format!("no {}", self.name),
            Some((low, high)) if low == high => format!("{} {low}", self.name),
            Some((low, high)) => format!("{} {low}..{high}", self.name),
        }
    }
}

/// A decimal integer of 32 bits, behind a minus sign if it is below 0.
pub fn integer(text: &str) -> Option<i64> {
    let digits = text.strip_prefix('-').unwrap_or(text);
    let plain = digits.bytes().all(|byte| byte.is_ascii_digit());
    plain.then(|| text.parse::<i32>().ok())?.map(i64::from)
}
