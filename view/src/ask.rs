//! What is asked of a store, and the leaves that the answer reads.
use crate::attribute::{integer, Attribute};
use crate::picture::Picture;
use mdeh::{Range, Refusal};

/// What an argument asks: `NAME=VALUE` or `NAME=LOW..HIGH`.
#[derive(Clone, Debug, PartialEq, Eq)]
pub struct Ask {
    /// the name or the number of an attribute
    pub name: String,
    pub low: i64,
    pub high: i64,
}

/// How many records match, and how many pages are read, as the store answers.
#[derive(Clone, Copy, Debug, PartialEq, Eq)]
pub struct Answer {
    pub total: usize,
    pub reads: usize,
}

/// A range query and its answer.
pub struct Asked {
    /// what is asked: "code 30, release 400..479"
    pub words: String,
    /// for each attribute the least and the greatest encoding that match
    pub wanted: Vec<(u32, u32)>,
    pub answer: Answer,
    /// by place in the picture's leaves: how many records match in a leaf that is read
    pub read: Vec<Option<usize>>,
}

impl Ask {
    /// What a text asks. None for one of another form.
    pub fn parse(text: &str) -> Option<Ask> {
        let (name, values) = text.split_once('=')?;
        let (low, high) = values.split_once("..").unwrap_or((values, values));
        (!name.is_empty()).then_some(Ask { name: name.to_owned(), low: integer(low)?, high: integer(high)? })
    }

    /// The attribute that is meant, by its name or else by its number.
    fn place(&self, attributes: &[Attribute]) -> Result<usize, String> {
        let named = attributes.iter().position(|attribute| attribute.name == self.name);
        let numbered = || (0..attributes.len()).find(|j| j.to_string() == self.name);
        named.or_else(numbered).ok_or_else(|| format!("the store has no attribute {}", self.name))
    }

    /// The least and the greatest encoding of an attribute that match; otherwise which end is no value of it.
    fn encodings(&self, attribute: &Attribute) -> Result<(u32, u32), String> {
        let encoding = |value: i64| {
            let (least, greatest) = attribute.ends();
            let name = &attribute.name;
            attribute.encoding(value).ok_or(format!("{name} {value} is none of {least}..{greatest}"))
        };
        Ok((encoding(self.low)?, encoding(self.high)?))
    }
}

/// What the asks say together of a picture's store, which gives its own answer to a range. Otherwise why they are
/// refused.
pub fn asked(
    picture: &Picture,
    asks: &[Ask],
    store: impl FnOnce(Range) -> Result<Answer, Refusal>,
) -> Result<Asked, String> {
    let attributes = &picture.attributes;
    let mut wanted: Vec<Option<(u32, u32)>> = vec![None; attributes.len()];
    for ask in asks {
        let j = ask.place(attributes)?;
        if wanted[j].replace(ask.encodings(&attributes[j])?).is_some() {
            return Err(format!("{} is asked twice", attributes[j].name));
        }
    }
    let answer = store(range(picture, &wanted)).map_err(|refusal| refused(&refusal))?;
    let told = attributes.iter().zip(&wanted).filter_map(|(attribute, &ends)| Some(attribute.told(ends?)));
    let words = told.collect::<Vec<_>>().join(", ");
    let whole = |(ends, attribute): (Option<(u32, u32)>, &Attribute)| ends.unwrap_or((0, attribute.last()));
    let wanted: Vec<(u32, u32)> = wanted.into_iter().zip(attributes).map(whole).collect();
    let read = read(picture, &wanted);
    Ok(Asked { words, wanted, answer, read })
}

/// The number and the reason of a refusal.
pub fn refused(refusal: &Refusal) -> String {
    format!("no {} ({refusal})", refusal.number())
}

/// The range of these encodings, in the store's values.
fn range(picture: &Picture, wanted: &[Option<(u32, u32)>]) -> Range {
    let mut range = Range::all();
    for (j, ends) in wanted.iter().enumerate() {
        if let Some((low, high)) = *ends {
            let least = *picture.shape.values(j).start();
            range = range.within(j, least + low as i32..=least + high as i32);
        }
    }
    range
}

/// By leaf: the records that match in a leaf with a page whose keys can match.
fn read(picture: &Picture, wanted: &[(u32, u32)]) -> Vec<Option<usize>> {
    let meets = |(&(low, high), &(least, most)): (&(u32, u32), &(u32, u32))| low <= most && least <= high;
    let leaves = picture.leaves.iter().map(|leaf| {
        let read = leaf.page.is_some() && picture.region(leaf.bits).iter().zip(wanted).all(meets);
        read.then(|| leaf.records.iter().filter(|record| picture.matches(record, wanted)).count())
    });
    leaves.collect()
}
