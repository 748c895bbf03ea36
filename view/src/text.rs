//! The picture as text. Names aside, no line but those that tell values is over 100 columns wide.
use crate::figures;
use crate::picture::{Cell, Leaf, Picture};

/// A directory up to this depth has a line for each cell, up to the other a character.
const LISTED: usize = 6;
const GRID: usize = 8;

/// Cells in a row of the grid, and in a group of its row.
const ROW: usize = 64;
const GROUP: usize = 8;

/// The most regions that are listed as the fullest.
const FULLEST: usize = 10;

/// The header, the cells by address, the fullest regions, the leaves by depth.
pub fn draw(picture: &Picture) -> String {
    let mut lines = header(picture);
    lines.push(String::new());
    lines.extend(match picture.depth {
        depth if depth <= LISTED => listed(picture),
        depth if depth <= GRID => grid(picture),
        _ => vec![figures::many_cells(picture)],
    });
    lines.extend([String::new(), figures::next(picture)]);
    lines.extend(figures::fullest(picture, FULLEST).iter().map(|line| format!("  {line}")));
    let read = if picture.asked.is_some() { "; > is read" } else { "" };
    lines.extend([
        String::new(),
        format!("Leaves by depth, in split order: string, page, its records, values{read}"),
    ]);
    for depth in (0..=picture.depth).filter(|&depth| picture.tally[depth] > 0) {
        lines.extend(leaves(picture, depth));
    }
    lines.iter().map(|line| format!("{}\n", line.trim_end())).collect()
}

/// The shape, the figures of the state, what is asked, the leaves at each depth and the split step that halves a region
/// of it.
fn header(picture: &Picture) -> Vec<String> {
    let depths = (0..=picture.depth).map(|depth| depth.to_string());
    let tally = picture.tally.iter().map(usize::to_string);
    let steps = picture.steps[..picture.depth].iter();
    let mut lines = vec![
        format!("shape      {}", figures::shape(picture)),
        format!("directory  {}", figures::directory(picture)),
        format!("pages      {}", figures::pages(picture)),
    ];
    lines.extend(figures::asked(picture).map(|asked| format!("asked      {asked}")));
    lines.extend([
        String::new(),
        row("depth", depths),
        row("leaves", tally),
        row("halved by attribute.bit", steps.map(|(bit, attribute)| format!("{attribute}.{bit}"))),
    ]);
    lines
}

/// A label and a column for each number.
fn row(label: &str, numbers: impl Iterator<Item = String>) -> String {
    numbers.fold(format!("{label:23}"), |row, number| format!("{row}{number:>5}"))
}

/// A line for each cell.
fn listed(picture: &Picture) -> Vec<String> {
    let mut rows = vec![["address", "split bits", "index", "leaf", "page"].map(str::to_owned)];
    for (address, cell) in picture.cells.iter().enumerate() {
        let leaf = &picture.leaves[cell.leaf];
        let read = if picture.read(cell.leaf).is_some() { "  > read" } else { "" };
        rows.push([
            format!("{address:>7}"),
            cell.bits.to_string(),
            figures::vector(&cell.index),
            leaf.bits.to_string(),
            format!("{}{read}", figures::page(leaf)),
        ]);
    }
    let widths: [usize; 5] =
        std::array::from_fn(|column| rows.iter().map(|row| row[column].len()).max().unwrap_or(0));
    let line = |row: [String; 5]| -> String {
        row.iter().zip(widths).map(|(field, width)| format!("{field:width$}  ")).collect()
    };
    let heading = "Cells by address".to_owned();
    std::iter::once(heading).chain(rows.into_iter().map(line)).collect()
}

/// A character for each cell.
fn grid(picture: &Picture) -> Vec<String> {
    let unread = if picture.asked.is_some() { ", - not read" } else { "" };
    let legend = format!("the depth of the cell's leaf, . without a page{unread}");
    let mut lines = vec![format!("Cells by address, {ROW} in a row: {legend}")];
    for (row, cells) in picture.cells.chunks(ROW).enumerate() {
        let marks = |group: &[Cell]| group.iter().map(|cell| mark(picture, cell.leaf)).collect();
        let groups: Vec<String> = cells.chunks(GROUP).map(marks).collect();
        lines.push(format!("{:>7}  {}", row * ROW, groups.join(" ")));
    }
    lines
}

/// The depth of the leaf at a place as a digit, a dot for a leaf without a page, a minus for one that is not read.
fn mark(picture: &Picture, place: usize) -> char {
    let leaf = &picture.leaves[place];
    match leaf.page {
        None => '.',
        Some(_) if picture.asked.is_some() && picture.read(place).is_none() => '-',
        Some(_) => char::from_digit(leaf.depth() as u32, 10).expect("a grid has depths up to 8"),
    }
}

/// The leaves at a depth in split order.
fn leaves(picture: &Picture, depth: usize) -> Vec<String> {
    let places: Vec<usize> =
        (0..picture.leaves.len()).filter(|&place| picture.leaves[place].depth() == depth).collect();
    let cells = figures::counted(1 << (picture.depth - depth), "cell", "cells");
    let heading = match places.len() {
        1 => format!("Depth {depth}: 1 leaf, {cells}"),
        count => format!("Depth {depth}: {} leaves, {cells} each", figures::grouped(count)),
    };
    let pages = places.iter().map(|&place| figures::page(&picture.leaves[place]).len());
    let widest = pages.max().unwrap_or(0);
    let mut lines = vec![heading];
    lines.extend(places.into_iter().map(|place| entry(picture, place, widest)));
    lines
}

/// The leaf at a place: its string, its page in so many columns, a bar with a place for each record that the page has
/// room for, its count and its values.
fn entry(picture: &Picture, place: usize, widest: usize) -> String {
    let leaf: &Leaf = &picture.leaves[place];
    let count = leaf.records.len();
    let bar: String = (0..picture.capacity()).map(|place| if place < count { '#' } else { '.' }).collect();
    let mark = if picture.read(place).is_some() { '>' } else { ' ' };
    let (page, values) = (figures::page(leaf), figures::values(picture, leaf.bits));
    format!("{mark} {}  {page:widest$}  {bar} {count:<2}  {values}", leaf.bits)
}
