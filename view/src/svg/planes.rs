//! The keys: a line for one attribute, a plane for two, the projections on each pair for three and four.
mod shading;

use super::canvas::{number, Area, Canvas};
use super::{colour, each};
use crate::figures;
use crate::picture::{Leaf, Picture};
use mdeh::Record;

/// The height of a line, and of the words below a line or a plane.
const LINE: f64 = 40.0;
const WORDS: f64 = 30.0;

/// The projections in a row, and the room for words at the left of each.
const COLUMNS: usize = 3;
const LEFT: f64 = 50.0;

/// The most regions that are outlined as those in which 6 is next.
const OUTLINED: usize = 64;

/// The keys, seen by one or two attributes.
struct Plane<'p> {
    picture: &'p Picture,
    area: Area,
    /// the attribute to the right, and the one upward
    across: usize,
    up: Option<usize>,
}

/// What a part of the picture shows.
pub fn heading(picture: &Picture) -> &'static str {
    match (picture.attributes.len(), each(picture)) {
        (..=2, true) => "Keys, with a point for each record",
        (..=2, false) => "Keys: where there are more records it is darker",
        (_, true) => "Keys by pairs of attributes: outlines of leaves, with a point for each record",
        (_, false) => "Keys by pairs of attributes: where there are more records it is darker",
    }
}

/// Draws the keys in an area of this width; returns the height.
pub fn draw(canvas: &mut Canvas, picture: &Picture, area: Area) -> f64 {
    match picture.attributes.len() {
        1 => plane(canvas, picture, Area { height: LINE, ..area }, (0, None)),
        2 => plane(canvas, picture, Area { x: area.x + LEFT, ..area }, (0, Some(1))),
        _ => pairs(canvas, picture, area),
    }
}

/// Draws the projection on each pair of attributes; returns the height.
fn pairs(canvas: &mut Canvas, picture: &Picture, area: Area) -> f64 {
    let attributes = 0..picture.attributes.len();
    let pairs = attributes.clone().flat_map(|across| attributes.clone().map(move |up| (across, up)));
    let width = area.width / COLUMNS as f64;
    let side = width - LEFT - 5.0;
    let mut height = 0.0;
    for (place, (across, up)) in pairs.filter(|(across, up)| across < up).enumerate() {
        let x = area.x + (place % COLUMNS) as f64 * width + LEFT;
        let y = area.y + (place / COLUMNS) as f64 * (side + WORDS + 12.0);
        height = y - area.y + plane(canvas, picture, Area::new(x, y, side, side), (across, Some(up)));
    }
    height
}

/// Draws the leaves and the records by one or two attributes in an area; returns the height.
pub fn plane(
    canvas: &mut Canvas,
    picture: &Picture,
    area: Area,
    (across, up): (usize, Option<usize>),
) -> f64 {
    let plane = Plane { picture, area, across, up };
    match (each(picture), picture.attributes.len()) {
        (true, ..=2) => plane.tiles(canvas),
        (true, _) => plane.outlines(canvas),
        _ => shading::draw(canvas, &plane),
    }
    if each(picture) {
        plane.records(canvas);
    }
    plane.marks(canvas);
    canvas.plain(area, "class=\"frame\"");
    plane.axes(canvas);
    area.height + WORDS
}

impl Plane<'_> {
    /// Where the keys of a region lie, by the ranks of their values; a region is the least and the greatest encoding of
    /// each attribute.
    fn tile(&self, region: &[(u32, u32)]) -> Area {
        let Area { x, y, width, height } = self.area;
        let part = |j: usize| {
            let attribute = &self.picture.attributes[j];
            let (ranks, count) = (attribute.ranks(region[j]), attribute.count as f64);
            (ranks.start as f64 / count, ranks.end as f64 / count)
        };
        let (left, right) = part(self.across);
        let (lower, upper) = self.up.map_or((0.0, 1.0), part);
        Area::new(
            x + left * width,
            y + (1.0 - upper) * height,
            (right - left) * width,
            (upper - lower) * height,
        )
    }

    /// The middle of a record's place.
    fn point(&self, record: &Record) -> (f64, f64) {
        let place: Vec<(u32, u32)> = self.picture.encodings(record).map(|e| (e, e)).collect();
        let Area { x, y, width, height } = self.tile(&place);
        (x + width / 2.0, y + height / 2.0)
    }

    /// A tile of its own for each leaf.
    fn tiles(&self, canvas: &mut Canvas) {
        for (place, leaf) in self.picture.leaves.iter().enumerate() {
            let tile = self.tile(&self.picture.region(leaf.bits));
            canvas.rect(tile, &colour::leaf(self.picture, place), &figures::leaf(self.picture, place));
        }
    }

    /// The outlines of the leaves, which lie over one another; those that are read are filled.
    fn outlines(&self, canvas: &mut Canvas) {
        let outlines = |read: bool| {
            let leaves = self.picture.leaves.iter().enumerate();
            let leaves = leaves.filter(|&(place, _)| self.picture.read(place).is_some() == read);
            let tile = |(_, leaf): (usize, &Leaf)| self.tile(&self.picture.region(leaf.bits)).outline();
            let mut outlines: Vec<String> = leaves.map(tile).collect();
            outlines.sort();
            outlines.dedup();
            outlines.concat()
        };
        canvas.path("outline", &outlines(false));
        canvas.path("outline chosen", &outlines(true));
    }

    /// A point for each record; those that match what is asked stand out.
    fn records(&self, canvas: &mut Canvas) {
        let asked = self.picture.asked.as_ref();
        let points = |matching: bool| -> String {
            let wanted = |record: &&Record| {
                asked.is_none_or(|asked| self.picture.matches(record, &asked.wanted)) == matching
            };
            let records = self.picture.records().filter(wanted).map(|record| self.point(record));
            records.map(|(x, y)| format!("M{} {}h0", number(x), number(y))).collect()
        };
        let size = if self.picture.records().count() > 400 { " fine" } else { "" };
        canvas.path(&format!("record other{size}"), &points(false));
        canvas.path(&format!("record{size}"), &points(true));
    }

    /// What is asked, where it is less than all, and the regions in which 6 is next, where they are few.
    fn marks(&self, canvas: &mut Canvas) {
        if let Some(asked) = &self.picture.asked {
            let tile = self.tile(&asked.wanted);
            if tile.width < self.area.width || tile.height < self.area.height {
                // one value among many is seen too
                let seen = Area { width: tile.width.max(1.0), height: tile.height.max(1.0), ..tile };
                canvas.plain(seen, "class=\"asked\"");
            }
        }
        let fullest = &self.picture.fullest;
        if fullest.refuses() && fullest.regions.len() <= OUTLINED {
            let tiles = fullest.regions.iter().map(|region| self.tile(&self.picture.region(region.bits)));
            canvas.path("full", &tiles.map(Area::outline).collect::<String>());
        }
    }

    /// The attributes and their least and greatest values.
    fn axes(&self, canvas: &mut Canvas) {
        let Area { x, y, width, height } = self.area;
        let (attribute, bottom) = (&self.picture.attributes[self.across], y + height);
        let (least, greatest) = attribute.ends();
        canvas.text(x, bottom + 15.0, "", &least.to_string());
        canvas.text(x + width / 2.0, bottom + 15.0, "middle", &attribute.name);
        canvas.text(x + width, bottom + 15.0, "end", &greatest.to_string());
        if let Some(attribute) = self.up.map(|up| &self.picture.attributes[up]) {
            let (least, greatest) = attribute.ends();
            canvas.text(x - 5.0, bottom, "end", &least.to_string());
            canvas.upward(x - 9.0, y + height / 2.0, &attribute.name);
            canvas.text(x - 5.0, y + 10.0, "end", &greatest.to_string());
        }
    }
}

#[cfg(test)]
mod tests {
    use super::*;
    use crate::attribute::Spec;
    use crate::owned;
    use mdeh::Shape;

    /// A store of this shape under names, with keys of all their values.
    fn picture(shape: Shape, specs: &[&str]) -> Picture {
        let mut lent = owned::fresh(shape, 1 << 15).expect("the shape is within its bounds");
        let specs: Vec<Spec> = specs.iter().map(|spec| Spec::parse(spec).expect("a name")).collect();
        for i in 1..90u32 {
            let mut key = [0; 4];
            for (j, spec) in specs.iter().enumerate() {
                let attribute = spec.attribute(shape, j).expect("the values fit");
                let value = attribute.ends().0 + i64::from(i * i + 7 * i * j as u32) % attribute.count;
                key[j] = shape.values(j).start() + attribute.encoding(value).expect("a value") as i32;
            }
            // a key that is stored already is passed over
            let _ = lent.insert(key, i);
        }
        let mut picture = Picture::of(&lent);
        picture.name(&specs).expect("the values fit");
        picture
    }

    /// Each leaf has its records in its tile, on every pair of attributes; the leaves of one or two tile the area.
    fn compare(shape: Shape, specs: &[&str]) {
        let picture = picture(shape, specs);
        assert!(picture.leaves.len() > 8, "{specs:?}");
        let area = Area::new(3.0, 5.0, 64.0, 256.0);
        let ups = (0..specs.len()).map(Some).chain([None]);
        for (across, up) in ups.flat_map(|up| (0..specs.len()).map(move |across| (across, up))) {
            let plane = Plane { picture: &picture, area, across, up };
            let mut covered = 0.0;
            for leaf in &picture.leaves {
                let Area { x, y, width, height } = plane.tile(&picture.region(leaf.bits));
                covered += width * height;
                for (right, down) in leaf.records.iter().map(|record| plane.point(record)) {
                    assert!(x < right && right < x + width && y < down && down < y + height, "{}", leaf.bits);
                }
            }
            let seen = if up.is_none() { 1 } else { 2 };
            assert!(
                specs.len() > seen || up == Some(across) || (covered - 64.0 * 256.0).abs() < 1e-6,
                "{covered}"
            );
        }
    }

    #[test]
    fn records_lie_in_their_leaves() {
        compare(Shape::new(&[7], 3), &["a"]);
        compare(Shape::new(&[7], 3), &["a:from=-20,to=79"]);
        for signs in 0..4 {
            compare(Shape { signs, ..Shape::new(&[6, 5], 2) }, &["a", "b"]);
        }
        compare(Shape::new(&[6, 5], 2), &["a:from=7", "b:from=398,to=415"]);
        compare(Shape::new(&[6, 5, 4], 2), &["a:from=0,to=49", "b", "c:from=-3,to=9"]);
        compare(Shape::new(&[6, 5, 4, 2], 1).signed(2), &["a", "b:from=1,to=31", "c", "d"]);
    }
}
