//! The picture as SVG: the cells by address, the keys, where 6 is next, the regions by depth, the pages. It needs
//! nothing beside itself, and has less than 300,000 bytes for every store.
mod canvas;
mod cells;
mod colour;
mod pages;
mod planes;
mod regions;

use crate::figures;
use crate::picture::Picture;
use canvas::{Area, Canvas};

/// The width of the picture and of its margins.
const WIDTH: f64 = 1100.0;
const MARGIN: f64 = 40.0;

/// The side of the cells and of the keys where they stand side by side.
const HALF: f64 = 460.0;

/// Up to so many leaves, each is drawn on its own, in its own colour and with a title.
const EACH: usize = 64;

/// A directory up to this depth is drawn.
const DRAWN: usize = 8;

/// The most fullest regions, and the most leaves that are read, that are told in lines.
const FULLEST: usize = 6;
const READ: usize = 24;

/// The most letters of a line that stands beside another one, and the height of a line.
const SHORT: usize = 85;
const LINE: f64 = 14.0;

const STYLE: &str = include_str!("svg/style.txt");

/// The whole picture.
pub fn draw(picture: &Picture) -> String {
    let mut canvas = Canvas::default();
    let mut y = header(&mut canvas, picture);
    y = directory(&mut canvas, picture, y);
    y = told(&mut canvas, y, &figures::next(picture), &figures::fullest(picture, FULLEST));
    if picture.asked.is_some() {
        y = told(&mut canvas, y, "Pages that are read", &figures::read(picture, READ));
    }
    y = heading(&mut canvas, MARGIN, y, "Regions by depth, in split order; bit 0 is the highest");
    y += regions::draw(&mut canvas, picture, inner(y));
    y = heading(&mut canvas, MARGIN, y, &format!("Pages by number: {}", figures::pages(picture)));
    y += pages::draw(&mut canvas, picture, inner(y));
    canvas.finish(WIDTH, y + MARGIN / 2.0, STYLE)
}

/// Whether each leaf is drawn on its own.
fn each(picture: &Picture) -> bool {
    picture.leaves.len() <= EACH
}

/// Whether the leaf at a place has a title: each has, or it is among few that are read.
fn titled(picture: &Picture, place: usize) -> bool {
    let few = picture.asked.as_ref().is_some_and(|asked| asked.answer.reads <= EACH);
    each(picture) || few && picture.read(place).is_some()
}

/// A text of at most so many letters; a longer one is cut off.
fn shortened(text: &str, letters: usize) -> String {
    match text.char_indices().nth(letters) {
        Some(_) => text.chars().take(letters - 1).chain(['…']).collect(),
        None => text.to_owned(),
    }
}

/// The area between the margins from y on, its height left open.
fn inner(y: f64) -> Area {
    Area::new(MARGIN, y, WIDTH - 2.0 * MARGIN, 0.0)
}

/// The figures, the key to the colours and what is asked; returns where the next part starts.
fn header(canvas: &mut Canvas, picture: &Picture) -> f64 {
    canvas.text(MARGIN, 36.0, "heading", &format!("A store of {}", figures::shape(picture)));
    let colours = match (each(picture), picture.asked.is_some()) {
        (true, false) => "A colour is a leaf, the same in each part; hatched: a leaf without a page.",
        (true, true) => {
            "Strong: a leaf that is read, in the same colour in each part; framed in orange: what is asked."
        }
        (false, false) => "Blue: leaves with a page; hatched: leaves without one.",
        (false, true) => "Blue: what is read; grey: what is not; framed in orange: what is asked.",
    };
    let full = match picture.fullest.refuses() {
        true => " Red: leaves with a region that is full, where a further key is refused with 6.",
        false => "",
    };
    canvas.text(MARGIN, 58.0, "", &format!("{colours}{full}"));
    match figures::asked(picture) {
        Some(asked) => {
            canvas.text(MARGIN, 86.0, "heading answer", &asked);
            90.0
        }
        None => 62.0,
    }
}

/// The cells and the keys, side by side where there are two attributes; returns where the next part starts.
fn directory(canvas: &mut Canvas, picture: &Picture, y: f64) -> f64 {
    let text = format!("Directory by address: {}", figures::directory(picture));
    let mut top = heading(canvas, MARGIN, y, &text);
    if picture.attributes.len() == 2 && picture.depth <= DRAWN {
        cells::draw(canvas, picture, Area::new(MARGIN, top, HALF, HALF), 1.0);
        let left = WIDTH - MARGIN - HALF;
        heading(canvas, left, y, planes::heading(picture));
        return top + planes::plane(canvas, picture, Area::new(left, top, HALF, HALF), (0, Some(1)));
    }
    if picture.depth <= DRAWN {
        top += cells::draw(canvas, picture, inner(top), 4.0);
    } else {
        canvas.text(MARGIN, top + 6.0, "", &figures::many_cells(picture));
        top += 10.0;
    }
    top = heading(canvas, MARGIN, top, planes::heading(picture));
    let area = match picture.attributes.len() {
        2 => Area::new(MARGIN, top, HALF, HALF),
        _ => inner(top),
    };
    top + planes::draw(canvas, picture, area)
}

/// The heading of a part; returns where the part starts.
fn heading(canvas: &mut Canvas, x: f64, y: f64, text: &str) -> f64 {
    canvas.text(x, y + 34.0, "heading", text);
    y + 54.0
}

/// A heading, and lines one below the other, in two columns if all of them are short; returns where the next part
/// starts.
fn told(canvas: &mut Canvas, y: f64, text: &str, lines: &[String]) -> f64 {
    let top = heading(canvas, MARGIN, y, text);
    let columns = if lines.iter().all(|line| line.chars().count() <= SHORT) { 2 } else { 1 };
    let height = lines.len().div_ceil(columns);
    for (place, line) in lines.iter().enumerate() {
        let x = MARGIN + (place / height) as f64 * (WIDTH - MARGIN) / 2.0;
        canvas.text(x, top + (place % height) as f64 * LINE, "line", line);
    }
    if lines.is_empty() {
        return y + 36.0;
    }
    top + (height as f64 - 0.5) * LINE
}
