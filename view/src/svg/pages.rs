//! The pages by number, each a bar with its fill.
use super::canvas::{number, Area, Canvas};
use super::colour::{self, Kind};
use super::{titled, EACH};
use crate::figures;
use crate::picture::Picture;

/// The greatest and the least width of a wide bar with its gap, its height, and the height of the number below it.
const WIDE: f64 = 30.0;
const NARROW: f64 = 10.0;
const HEIGHT: f64 = 44.0;
const NUMBER: f64 = 16.0;

/// The width of a thin bar with its gap, its height, and the height of a row of them.
const STEP: usize = 6;
const LOW: usize = 16;
const ROW: usize = 22;

/// Draws the pages up to the last one in use in an area of this width; returns the height.
pub fn draw(canvas: &mut Canvas, picture: &Picture, area: Area) -> f64 {
    let pages = picture.pages();
    if pages.len() <= EACH {
        return wide(canvas, picture, &pages, area);
    }
    thin(canvas, picture, &pages, area)
}

/// Wide bars with their numbers, in rows.
fn wide(canvas: &mut Canvas, picture: &Picture, pages: &[Option<usize>], area: Area) -> f64 {
    let width = (area.width / pages.len().max(1) as f64).clamp(NARROW, WIDE);
    let columns = (area.width / width) as usize;
    let full = picture.fullest.leaves();
    let mut edges = String::new();
    for (page, &place) in pages.iter().enumerate() {
        let x = area.x + (page % columns) as f64 * width;
        let y = area.y + (page / columns) as f64 * (HEIGHT + NUMBER);
        let room = Area::new(x, y, width - width.sqrt(), HEIGHT);
        bar(canvas, picture, room, page, place);
        if place.is_some_and(|place| full.contains(&place)) {
            edges += &room.lower_edge();
        }
        if page % 10 == 0 || width > 18.0 {
            canvas.text(x, y + HEIGHT + 12.0, "faint", &page.to_string());
        }
    }
    canvas.path("full", &edges);
    (HEIGHT + NUMBER) * pages.len().div_ceil(columns) as f64
}

/// One page: a frame for its room, and its leaf's colour as far as its records fill it.
fn bar(canvas: &mut Canvas, picture: &Picture, room: Area, page: usize, place: Option<usize>) {
    let Some(place) = place else {
        return canvas.rect(room, "class=\"room\"", &format!("page {page}, free"));
    };
    let height = room.height * picture.leaves[place].records.len() as f64 / picture.capacity() as f64;
    let filled = Area { y: room.y + room.height - height, height, ..room };
    canvas.plain(filled, &colour::leaf(picture, place));
    canvas.rect(room, "class=\"room\"", &figures::leaf(picture, place));
}

/// Thin bars in rows, with the number of each row's first page.
fn thin(canvas: &mut Canvas, picture: &Picture, pages: &[Option<usize>], area: Area) -> f64 {
    let columns = area.width as usize / STEP;
    for (row, pages) in pages.chunks(columns).enumerate() {
        let y = area.y + (row * ROW) as f64;
        canvas.plain(Area::new(area.x, y, (pages.len() * STEP) as f64, LOW as f64), "class=\"strip\"");
        canvas.text(area.x - 4.0, y + LOW as f64 - 4.0, "small end", &(row * columns).to_string());
    }
    let places = pages.iter().enumerate().filter_map(|(page, &place)| Some((page, place?)));
    let mut bars = Bars { paths: Default::default(), full: String::new(), leaves: picture.fullest.leaves() };
    canvas.open(&format!(
        "class=\"bars\" transform=\"translate({} {})\"",
        number(area.x + 2.5),
        number(area.y)
    ));
    for (page, place) in places {
        bars.add(canvas, picture, (page % columns, page / columns), place);
    }
    bars.paths.iter().for_each(|(kind, path)| canvas.path(kind.class(), path));
    canvas.path("full", &bars.full);
    canvas.close();
    (ROW * pages.len().div_ceil(columns)) as f64
}

/// The thin bars without a title, by what their leaves are, and a mark at each leaf in which 6 is next.
struct Bars {
    paths: std::collections::BTreeMap<Kind, String>,
    full: String,
    /// the places of those leaves, which rise
    leaves: Vec<usize>,
}

impl Bars {
    /// The bar of the leaf at a place, in a column and row.
    fn add(&mut self, canvas: &mut Canvas, picture: &Picture, (column, row): (usize, usize), place: usize) {
        let (x, bottom) = (column * STEP, row * ROW + LOW);
        let height = (LOW * picture.leaves[place].records.len()).div_ceil(picture.capacity());
        if titled(picture, place) {
            let bar = Area::new(x as f64 - 2.5, (bottom - height) as f64, 5.0, height as f64);
            canvas.rect(bar, &colour::leaf(picture, place), &figures::leaf(picture, place));
        } else {
            *self.paths.entry(Kind::of(picture, place)).or_default() += &format!("M{x} {bottom}v-{height}");
        }
        if self.leaves.binary_search(&place).is_ok() {
            self.full += &format!("M{x} {bottom}v3");
        }
    }
}
