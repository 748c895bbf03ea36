//! Squares that are darker where there are more records, for a store of many leaves.
use super::super::canvas::{Area, Canvas};
use super::Plane;
use crate::figures;
use std::ops::{Range, RangeInclusive};

/// The most squares along a side: of a line, of a plane, and of one among six.
const LINE: i64 = 512;
const SIDE: i64 = 64;
const SMALL: i64 = 32;

/// How many shades there are.
const SHADES: usize = 6;

/// The values of an attribute, divided among squares: each has as many, but for the last.
#[derive(Clone, Copy)]
struct Side {
    /// how many squares there are
    squares: usize,
    /// how many ranks a square has
    ranks: i64,
    /// how many squares the values fill, of the last a part
    length: f64,
}

/// The squares by row from the lowest, and in a row from left to right.
struct Squares {
    across: Side,
    up: Side,
    /// whether a leaf that is read lies over a square
    read: Vec<bool>,
    /// the records in a square: of the leaves that are read, where there is one, otherwise all
    records: Vec<usize>,
}

/// Draws the squares, and how many records the darkest one has.
pub fn draw(canvas: &mut Canvas, plane: &Plane) {
    let squares = Squares::of(plane);
    let most = squares.records.iter().copied().max().unwrap_or(0);
    let (width, height) = (squares.across.length, squares.up.length);
    // a row is a line of width 1 whose middle is a whole number; the highest may be cut off
    let above = squares.up.squares as f64 - height - 0.5;
    canvas.window(plane.area, &format!("0 {above:.3} {width:.3} {height:.3}"), "squares");
    for shade in 0..=SHADES {
        let other = if plane.picture.asked.is_some() { "pale" } else { "plain" };
        canvas.path(&format!("{other} s{shade}"), &squares.path(most, shade, false));
        canvas.path(&format!("read s{shade}"), &squares.path(most, shade, true));
    }
    canvas.close_window();
    let Area { x, y, width, .. } = plane.area;
    let text = format!("up to {} a square", figures::counted(most, "record", "records"));
    canvas.text(x + width, y - 4.0, "faint end", &text);
}

impl Side {
    /// So many values in at most so many squares.
    fn new(values: i64, most: i64) -> Side {
        let ranks = (values + most - 1) / most;
        Side { squares: ((values + ranks - 1) / ranks) as usize, ranks, length: values as f64 / ranks as f64 }
    }

    /// The squares of a range of ranks that is not empty.
    fn squares(self, ranks: Range<i64>) -> RangeInclusive<usize> {
        (ranks.start / self.ranks) as usize..=((ranks.end - 1) / self.ranks) as usize
    }
}

impl Squares {
    /// The squares of a plane.
    fn of(plane: &Plane) -> Squares {
        let attributes = &plane.picture.attributes;
        let most = match attributes.len() {
            1 => LINE,
            4 => SMALL,
            _ => SIDE,
        };
        let side = |j: usize| Side::new(attributes[j].count, most);
        let (across, up) = (side(plane.across), plane.up.map_or(Side::new(1, 1), side));
        let count = across.squares * up.squares;
        let mut squares = Squares { across, up, read: vec![false; count], records: vec![0; count] };
        squares.cover(plane);
        squares.count(plane);
        squares
    }

    /// Notes the squares over which leaves lie that are read.
    fn cover(&mut self, plane: &Plane) {
        let picture = plane.picture;
        for (_, leaf) in picture.leaves.iter().enumerate().filter(|&(place, _)| picture.read(place).is_some())
        {
            let (columns, rows) = self.place(plane, &picture.region(leaf.bits));
            for row in rows {
                self.read[row * self.across.squares..][columns.clone()].fill(true);
            }
        }
    }

    /// Counts the records.
    fn count(&mut self, plane: &Plane) {
        let picture = plane.picture;
        for (place, leaf) in picture.leaves.iter().enumerate() {
            for record in &leaf.records {
                let key: Vec<(u32, u32)> = picture.encodings(record).map(|e| (e, e)).collect();
                let (columns, rows) = self.place(plane, &key);
                let square = rows.start() * self.across.squares + columns.start();
                if !self.read[square] || picture.read(place).is_some() {
                    self.records[square] += 1;
                }
            }
        }
    }

    /// The columns and the rows of a region that has records.
    fn place(&self, plane: &Plane, region: &[(u32, u32)]) -> (RangeInclusive<usize>, RangeInclusive<usize>) {
        let ranks = |j: usize| plane.picture.attributes[j].ranks(region[j]);
        (self.across.squares(ranks(plane.across)), plane.up.map_or(0..=0, |up| self.up.squares(ranks(up))))
    }

    /// The squares of a shade that are read or not as a path of runs, from above. Shade 0 has no records, the others
    /// divide the counts up to the greatest by their square roots.
    fn path(&self, most: usize, shade: usize, read: bool) -> String {
        let of =
            |records: usize| (SHADES as f64 * (records as f64 / most.max(1) as f64).sqrt()).ceil() as usize;
        let mut path = String::new();
        for (y, row) in (0..self.up.squares).rev().enumerate() {
            let here = |column: usize| {
                let square = row * self.across.squares + column;
                of(self.records[square]) == shade && self.read[square] == read && (read || shade > 0)
            };
            let columns: Vec<bool> = (0..self.across.squares).map(here).collect();
            let mut x = 0;
            for run in columns.chunk_by(|a, b| a == b) {
                if run[0] {
                    path += &format!("M{x} {y}h{}", run.len());
                }
                x += run.len();
            }
        }
        path
    }
}
