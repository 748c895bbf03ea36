//! The directory: its cells by address, in rows.
use super::canvas::{Area, Canvas};
use super::{colour, each};
use crate::figures;
use crate::picture::{Cell, Picture};

/// The greatest side of a cell, and the least with its split bits and page beside its address.
const SIDE: f64 = 115.0;
const ROOMY: f64 = 50.0;

/// Where the cells lie.
struct Grid {
    area: Area,
    columns: usize,
    side: f64,
}

/// Draws the cells in an area of this width, about `ratio` times as wide as high; returns the height.
pub fn draw(canvas: &mut Canvas, picture: &Picture, area: Area, ratio: f64) -> f64 {
    let wanted = (picture.cells.len() as f64 * ratio).sqrt().ceil() as usize;
    let columns = wanted.next_power_of_two().min(picture.cells.len());
    let grid = Grid { area, columns, side: (area.width / columns as f64).min(SIDE) };
    for place in 0..picture.leaves.len() {
        canvas.open(&colour::leaf(picture, place));
        for (address, cell) in picture.cells.iter().enumerate().filter(|(_, cell)| cell.leaf == place) {
            canvas.rect(grid.place(address, 1), "", &title(picture, address, cell));
        }
        canvas.close();
    }
    labels(canvas, picture, &grid);
    blocks(canvas, picture, &grid);
    full(canvas, picture, &grid);
    grid.side * (picture.cells.len() / columns) as f64
}

impl Grid {
    /// The area of so many cells from an address on, which are part of a row or whole rows.
    fn place(&self, address: usize, cells: usize) -> Area {
        let (row, column) = (address / self.columns, address % self.columns);
        let (width, height) = (cells.min(self.columns), cells.div_ceil(self.columns));
        Area::new(
            self.area.x + column as f64 * self.side,
            self.area.y + row as f64 * self.side,
            width as f64 * self.side,
            height as f64 * self.side,
        )
    }
}

/// What is known of a cell.
fn title(picture: &Picture, address: usize, cell: &Cell) -> String {
    let (index, leaf) = (figures::vector(&cell.index), &picture.leaves[cell.leaf]);
    format!("cell {address}: bits {}, index {index}, leaf {}, {}", cell.bits, leaf.bits, figures::page(leaf))
}

/// The address in each cell, with its split bits and page, as far as there is room.
fn labels(canvas: &mut Canvas, picture: &Picture, grid: &Grid) {
    canvas.open("class=\"label\"");
    for (address, cell) in picture.cells.iter().enumerate() {
        let area = grid.place(address, 1);
        let (x, y) = (area.x + grid.side / 2.0, area.y + grid.side / 2.0 + 4.0);
        let class = if !each(picture) && picture.read(cell.leaf).is_some() { "over " } else { "" };
        if grid.side < ROOMY {
            canvas.text(x, y, &format!("{class}middle"), &address.to_string());
            continue;
        }
        canvas.text(x, y - 17.0, &format!("{class}middle strong"), &address.to_string());
        canvas.text(x, y, &format!("{class}middle bits"), &cell.bits.to_string());
        canvas.text(x, y + 17.0, &format!("{class}middle"), &figures::page(&picture.leaves[cell.leaf]));
    }
    canvas.close();
}

/// The lower edge of each cell whose leaf has a region in which 6 is next.
fn full(canvas: &mut Canvas, picture: &Picture, grid: &Grid) {
    let leaves = picture.fullest.leaves();
    let cells = picture.cells.iter().enumerate().filter(|(_, cell)| leaves.contains(&cell.leaf));
    let edges = cells.map(|(address, _)| grid.place(address, 1)).map(|area| {
        let inside = Area::new(area.x + 2.0, area.y, area.width - 4.0, area.height - 2.0);
        inside.lower_edge()
    });
    canvas.path("full", &edges.collect::<String>());
}

/// A frame about the cells that each doubling appended.
fn blocks(canvas: &mut Canvas, picture: &Picture, grid: &Grid) {
    canvas.open("class=\"frame\"");
    canvas.plain(grid.place(0, 1), "");
    for step in 0..picture.depth {
        canvas.plain(grid.place(1 << step, 1 << step), "");
    }
    canvas.close();
}
