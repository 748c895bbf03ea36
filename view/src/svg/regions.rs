//! The regions by depth: a divided region stands above its halves, bit 0 to the left of bit 1.
use super::canvas::{number, Area, Canvas};
use super::colour::{self, Kind};
use super::{each, shortened, titled};
use crate::figures;
use crate::picture::{Bits, Picture};
use std::ops::Range;

/// The height of a depth, and the width of the words beside it.
const BAND: f64 = 30.0;
const WORDS: f64 = 150.0;

/// The gap beside a region, the least width that is drawn of it, and the width of a letter.
const GAP: f64 = 0.8;
const LEAST: f64 = 1.2;
const LETTER: f64 = 7.5;

/// Divided regions above this depth are drawn on their own, however many leaves there are.
const SHALLOW: usize = 6;

/// What is drawn so far.
struct Bands<'p> {
    picture: &'p Picture,
    area: Area,
    /// for each depth and each point from left to right: what lies there, if it is not drawn on its own
    points: Vec<Vec<Option<Kind>>>,
    /// the places of leaves in which 6 is next, which rise, and their lower edges
    leaves: Vec<usize>,
    full: String,
}

/// Draws the regions in an area of this width; returns the height.
pub fn draw(canvas: &mut Canvas, picture: &Picture, area: Area) -> f64 {
    for (depth, &count) in picture.tally.iter().enumerate() {
        let y = area.y + depth as f64 * BAND;
        let leaves = figures::counted(count, "leaf", "leaves");
        canvas.text(area.x, y + 13.0, "", &format!("depth {depth}: {leaves}"));
        if let Some((bit, j)) = picture.steps[..picture.depth].get(depth) {
            let name = shortened(&picture.attributes[*j].name, 12);
            canvas.text(area.x, y + 25.0, "faint", &format!("halved by {name}, bit {bit}"));
        }
    }
    let regions = Area { x: area.x + WORDS, width: area.width - WORDS, ..area };
    let points = vec![vec![None; regions.width as usize]; picture.depth + 1];
    let leaves = picture.fullest.leaves();
    let mut bands = Bands { picture, area: regions, points, leaves, full: String::new() };
    let mut own = Canvas::default();
    bands.region(&mut own, Bits::default(), 0..picture.leaves.len());
    canvas.open("class=\"regions\"");
    bands.runs(canvas);
    canvas.append(own);
    canvas.path("full", &bands.full);
    canvas.close();
    (picture.depth + 1) as f64 * BAND
}

impl Bands<'_> {
    /// Draws a region, whose leaves are in a range of places, and the regions below it.
    fn region(&mut self, canvas: &mut Canvas, bits: Bits, places: Range<usize>) {
        let leaves = &self.picture.leaves[places.clone()];
        if leaves.len() == 1 {
            return self.leaf(canvas, bits, places.start);
        }
        if each(self.picture) || bits.count < SHALLOW {
            let records = leaves.iter().map(|leaf| leaf.records.len()).sum();
            let records = figures::counted(records, "record", "records");
            let title = format!("region {bits}, divided: {records} in {} leaves", leaves.len());
            let band = self.band(bits);
            canvas.rect(band, "class=\"divided\"", &title);
            label(canvas, band, &records);
        } else {
            self.mark(bits, Kind::Divided);
        }
        let middle = places.start + leaves.partition_point(|leaf| leaf.bits.bit(bits.count) == 0);
        self.region(canvas, bits.longer(0), places.start..middle);
        self.region(canvas, bits.longer(1), middle..places.end);
    }

    /// Draws the leaf at a place.
    fn leaf(&mut self, canvas: &mut Canvas, bits: Bits, place: usize) {
        let band = self.band(bits);
        if titled(self.picture, place) {
            canvas.rect(band, &colour::leaf(self.picture, place), &figures::leaf(self.picture, place));
            label(canvas, band, &bits.to_string());
        } else {
            self.mark(bits, Kind::of(self.picture, place));
        }
        if self.leaves.binary_search(&place).is_ok() {
            self.full += &Area { height: band.height - 1.0, ..band }.lower_edge();
        }
    }

    /// Where a region is drawn.
    fn band(&self, bits: Bits) -> Area {
        let (start, part) = bits.span();
        let (x, y) = (self.area.x + start * self.area.width, self.area.y + bits.count as f64 * BAND);
        Area::new(x, y, (part * self.area.width - GAP).max(LEAST), BAND - 2.0)
    }

    /// Notes what a region is at each point that it touches.
    fn mark(&mut self, bits: Bits, kind: Kind) {
        let points = &mut self.points[bits.count];
        let (start, part) = bits.span();
        let at = |place: f64| place * points.len() as f64;
        let (first, end) = (at(start) as usize, at(start + part).ceil() as usize);
        points[first..end].iter_mut().for_each(|point| *point = (*point).max(Some(kind)));
    }

    /// Draws what was noted: a run for points side by side that are alike.
    fn runs(&self, canvas: &mut Canvas) {
        let (x, y) = (number(self.area.x), number(self.area.y + BAND / 2.0 - 1.0));
        canvas.open(&format!("class=\"runs\" transform=\"translate({x} {y})\""));
        for kind in Kind::ALL {
            let mut path = String::new();
            for (depth, points) in self.points.iter().enumerate() {
                let mut x = 0;
                for run in points.chunk_by(|a, b| a == b) {
                    if run[0] == Some(kind) {
                        path += &format!("M{x} {}h{}", depth * BAND as usize, run.len());
                    }
                    x += run.len();
                }
            }
            canvas.path(kind.class(), &path);
        }
        canvas.close();
    }
}

/// A text in the middle of a band, if there is room for it.
fn label(canvas: &mut Canvas, band: Area, text: &str) {
    if band.width > LETTER * text.len() as f64 + 4.0 {
        canvas.text(band.x + band.width / 2.0, band.y + BAND / 2.0 + 3.0, "middle bits", text);
    }
}
