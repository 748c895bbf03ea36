//! The colours of leaves, the same in every part of the picture.
use super::each;
use crate::picture::Picture;

/// What a leaf is in a picture of many leaves, and the class of its colour: later ones are drawn over earlier ones.
#[derive(Clone, Copy, Debug, PartialEq, Eq, PartialOrd, Ord)]
pub enum Kind {
    Divided,
    Empty,
    /// with a page that is not read
    Pale,
    /// with a page, where nothing is asked
    Plain,
    Read,
}

impl Kind {
    pub const ALL: [Kind; 5] = [Kind::Divided, Kind::Empty, Kind::Pale, Kind::Plain, Kind::Read];

    /// What the leaf at a place is.
    pub fn of(picture: &Picture, place: usize) -> Kind {
        match (picture.leaves[place].page, &picture.asked) {
            (None, _) => Kind::Empty,
            (_, None) => Kind::Plain,
            (_, Some(asked)) if asked.read[place].is_some() => Kind::Read,
            _ => Kind::Pale,
        }
    }

    /// The name of its class in the styles.
    pub fn class(self) -> &'static str {
        match self {
            Kind::Divided => "divided",
            Kind::Empty => "empty",
            Kind::Pale => "pale",
            Kind::Plain => "plain",
            Kind::Read => "read",
        }
    }
}

/// The attributes of what stands for the leaf at a place: its class, and its own fill where each leaf has one.
pub fn leaf(picture: &Picture, place: usize) -> String {
    let kind = Kind::of(picture, place);
    if kind == Kind::Empty || !each(picture) {
        return format!("class=\"leaf {}\"", kind.class());
    }
    format!("class=\"leaf\" fill=\"{}\"", fill(picture, place, kind))
}

/// The fill of the leaf at a place in split order. Its hue is halfway between the part of the leaves and the part of
/// the keys that lie before it, so that neither many small leaves nor a few large ones share a hue; every other leaf
/// is lighter. A leaf that is read is strong, the others are then faint.
fn fill(picture: &Picture, place: usize, kind: Kind) -> String {
    let before = place as f64 / picture.leaves.len() as f64 + picture.leaves[place].bits.span().0;
    let (saturation, lightness) = match kind {
        Kind::Read => (0.9, 0.52),
        Kind::Pale => (0.25, 0.92),
        _ => (0.62, 0.7),
    };
    let lighter = if kind == Kind::Pale { 0.03 } else { 0.1 };
    colour(150.0 * before, saturation, lightness + lighter * (place % 2) as f64)
}

/// The colour of a hue in degrees, a saturation and a lightness from 0 to 1.
fn colour(hue: f64, saturation: f64, lightness: f64) -> String {
    let channel = |n: f64| {
        let k = (n + hue / 30.0) % 12.0;
        let reach = saturation * lightness.min(1.0 - lightness);
        let value = lightness - reach * (k - 3.0).min(9.0 - k).clamp(-1.0, 1.0);
        (255.0 * value).round() as u8
    };
    format!("#{:02x}{:02x}{:02x}", channel(0.0), channel(8.0), channel(4.0))
}
