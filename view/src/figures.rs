//! Figures of a picture in words, for the text and for the SVG.
use crate::picture::{Bits, Leaf, Picture};

/// The attributes' names and widths, which of them are signed, and the pages' capacity.
pub fn shape(picture: &Picture) -> String {
    let width = |(j, width): (usize, &u32)| match picture.shape.is_signed(j) {
        true => format!("{width} (signed)"),
        false => width.to_string(),
    };
    let widths: Vec<String> = picture.widths().iter().enumerate().map(width).collect();
    let attributes = counted(picture.attributes.len(), "attribute", "attributes");
    let capacity = counted(picture.capacity(), "record", "records");
    format!("{attributes}{} of width {}, pages of {capacity}", names(picture), widths.join(", "))
}

/// The names, if the attributes were named: " (code, slot)".
fn names(picture: &Picture) -> String {
    let names: Vec<&str> = picture.attributes.iter().map(|attribute| attribute.name.as_str()).collect();
    let plain = |(j, name): (usize, &&str)| *name == format!("attribute {j}");
    match names.iter().enumerate().all(plain) {
        true => String::new(),
        false => format!(" ({})", names.join(", ")),
    }
}

/// T and L, the cells and the leaves.
pub fn directory(picture: &Picture) -> String {
    let cells = counted(picture.cells.len(), "cell", "cells");
    let leaves = counted(picture.leaves.len(), "leaf", "leaves");
    format!("T {} of {}, {cells}, {leaves}", picture.depth, picture.depth_limit)
}

/// The pages that leaves have, P, the records, and the part of those pages that the records fill.
pub fn pages(picture: &Picture) -> String {
    let (used, records) = (picture.pages_used(), picture.records().count());
    let fill = match used * picture.capacity() {
        0 => String::new(),
        room => format!(", {} % filled", 100 * records / room),
    };
    let (used, limit) = (grouped(used), grouped(picture.page_limit));
    format!("{used} of {limit} in use{fill}, {}", counted(records, "record", "records"))
}

/// What is asked and what the store answers, if something is asked.
pub fn asked(picture: &Picture) -> Option<String> {
    let asked = picture.asked.as_ref()?;
    let (reads, pages) = (grouped(asked.answer.reads), counted(picture.pages_used(), "page", "pages"));
    let total = asked.answer.total;
    let verb = if total == 1 { "matches" } else { "match" };
    Some(format!("{}: reads {reads} of {pages}, {} {verb}", asked.words, counted(total, "record", "records")))
}

/// Why the cells of a deep directory are not drawn.
pub fn many_cells(picture: &Picture) -> String {
    format!("The {} cells are not drawn one by one: so they are up to T 8.", grouped(picture.cells.len()))
}

/// Where an insert is refused with 6, or how near that is.
pub fn next(picture: &Picture) -> String {
    let fullest = &picture.fullest;
    let bits = format!("of {} split bits", picture.depth_limit);
    let capacity = counted(picture.capacity(), "record", "records");
    let regions = counted(fullest.regions.len(), "region", "regions");
    let (are, have) = if fullest.regions.len() == 1 { ("is", "has") } else { ("are", "have") };
    let reason = match fullest.more {
        _ if fullest.never => format!("never comes: a region {bits} has no more keys than a page takes"),
        _ if fullest.records == 0 => format!("comes in no region {bits} before it has {capacity}"),
        0 => format!("comes next for a further key in {regions} {bits} that {are} full"),
        more => {
            let fit = if more == 1 { "fits" } else { "fit" };
            format!(
                "comes first in {regions} {bits} that {have} {} of {capacity}: {more} more {fit}",
                fullest.records
            )
        }
    };
    format!("Refusal 6 {reason}")
}

/// The fullest regions, up to so many, each with its split bits, its leaf's page and its values; then how many more.
pub fn fullest(picture: &Picture, most: usize) -> Vec<String> {
    let regions = if picture.fullest.never { &[] } else { &picture.fullest.regions[..] };
    let told = regions.iter().map(|region| {
        let leaf = &picture.leaves[region.leaf];
        let place = match leaf.bits == region.bits {
            true => page(leaf),
            false => format!("in {} of leaf {}", page(leaf), leaf.bits),
        };
        format!("{}: {place}, {}", region.bits, values(picture, region.bits))
    });
    listed(told.collect(), most)
}

/// The leaves that are read, up to so many, each with its page, its records that match and its values; then how many
/// more.
pub fn read(picture: &Picture, most: usize) -> Vec<String> {
    let told = picture.leaves.iter().enumerate().filter_map(|(place, leaf)| {
        let (matching, count) = (picture.read(place)?, leaf.records.len());
        Some(format!("{}: {matching} of {count} match, {}", page(leaf), values(picture, leaf.bits)))
    });
    listed(told.collect(), most)
}

/// The first lines, up to so many, and how many there are besides.
fn listed(mut lines: Vec<String>, most: usize) -> Vec<String> {
    let rest = lines.len().saturating_sub(most);
    if rest > 0 {
        lines.truncate(most);
        lines.push(format!("and {} more", grouped(rest)));
    }
    lines
}

/// A count with the noun in its number: "1 leaf", "1,828 leaves".
pub fn counted(count: usize, one: &str, more: &str) -> String {
    format!("{} {}", grouped(count), if count == 1 { one } else { more })
}

/// A number with a comma before each group of three digits: "1,828".
pub fn grouped(number: usize) -> String {
    let digits = number.to_string();
    let groups: Vec<&str> =
        digits.as_bytes().rchunks(3).rev().map(|group| std::str::from_utf8(group).expect("digits")).collect();
    groups.join(",")
}

/// An index vector: "(3,1)".
pub fn vector(index: &[u64]) -> String {
    let parts: Vec<String> = index.iter().map(u64::to_string).collect();
    format!("({})", parts.join(","))
}

/// The values of the keys that begin with a string: "code 12..15, slot 0..3, release 398..418".
pub fn values(picture: &Picture, bits: Bits) -> String {
    let region = picture.region(bits);
    let told = picture.attributes.iter().zip(region).map(|(attribute, encodings)| attribute.told(encodings));
    told.collect::<Vec<_>>().join(", ")
}

/// What is known of the leaf at a place: its string, its page, its records and its values.
pub fn leaf(picture: &Picture, place: usize) -> String {
    let leaf = &picture.leaves[place];
    let records = counted(leaf.records.len(), "record", "records");
    let read = picture.read(place).map_or_else(String::new, |matching| format!(" ({matching} match)"));
    let (depth, page, values) = (leaf.depth(), page(leaf), values(picture, leaf.bits));
    format!("leaf {}, depth {depth}, {page}, {records}{read}: {values}", leaf.bits)
}

/// A leaf's page: "page 3".
pub fn page(leaf: &Leaf) -> String {
    leaf.page.map_or_else(|| "no page".to_owned(), |page| format!("page {page}"))
}
