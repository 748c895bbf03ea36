//! Pages that no sound store has.
use super::{changed, pick, pick_page};
use crate::plain::image::{Image, Laid, Placed};
use crate::plain::refusal::used_widths;
use crate::plain::value::{encoding, is_value, number_in, value_of};
use crate::random::Random;
use crate::reference::steps;

pub fn page_without_leaf(random: &mut Random, laid: &Laid) -> Option<Image> {
    let free = &laid.free_pages;
    let page = *free.get(random.below(free.len().max(1)))?;
    let records: Vec<&Placed> = laid.leaves.iter().filter(|placed| placed.page.is_some()).collect();
    let counts = [1, 256, 1 + random.number() as u16 % 65_535];
    changed(laid, |image| {
        image.set_count(page, counts[random.below(3)]);
        if !records.is_empty() && random.below(2) == 1 {
            // the records of a leaf once more
            let copied = image.page(records[0].page.expect("it has a page")).to_vec();
            image.page(page).copy_from_slice(&copied);
        }
    })
}

pub fn count_of_none(random: &mut Random, laid: &Laid) -> Option<Image> {
    let (_, page) = pick_page(random, laid, 1)?;
    changed(laid, |image| image.set_count(page, 0))
}

pub fn count_above_capacity(random: &mut Random, laid: &Laid) -> Option<Image> {
    let (_, page) = pick_page(random, laid, 1)?;
    let b = laid.image.shape().capacity as u16;
    let counts = [b + 1, b + 256, 65_535, random.between(u64::from(b) + 1, 65_535) as u16];
    changed(laid, |image| image.set_count(page, counts[random.below(4)]))
}

// ---- records

pub fn out_of_order(random: &mut Random, laid: &Laid) -> Option<Image> {
    let (placed, page) = pick_page(random, laid, 2)?;
    let i = random.below(placed.leaf.records.len() - 1);
    changed(laid, |image| {
        let first = image.record(page, i).to_vec();
        let second = image.record(page, i + 1).to_vec();
        image.record(page, i).copy_from_slice(&second);
        image.record(page, i + 1).copy_from_slice(&first);
    })
}

pub fn outside_leaf(random: &mut Random, laid: &Laid) -> Option<Image> {
    let placed = pick(random, laid, |placed| placed.page.is_some() && placed.leaf.depth() > 0)?;
    let shape = laid.image.shape();
    let widths = used_widths(shape);
    let (k, j) = steps(&widths)[random.below(placed.leaf.depth())];
    let mut record = placed.leaf.records[random.below(placed.leaf.records.len())].clone();
    let i = placed.leaf.records.iter().position(|stored| stored.key == record.key)?;
    record.key[j] = value_of(shape, j, encoding(shape, j, record.key[j]) ^ 1 << (widths[j] - 1 - k));
    changed(laid, |image| image.record(placed.page.expect("picked"), i).copy_from_slice(&record.bytes()))
}

pub fn key_twice(random: &mut Random, laid: &Laid) -> Option<Image> {
    let (placed, page) = pick_page(random, laid, 2)?;
    let i = random.below(placed.leaf.records.len() - 1);
    changed(laid, |image| {
        let key = image.record(page, i)[..8].to_vec();
        image.record(page, i + 1)[..8].copy_from_slice(&key);
    })
}

/// Replaces field j of a record.
fn with_field(random: &mut Random, laid: &Laid, j: usize, field: u16) -> Option<Image> {
    let (placed, page) = pick_page(random, laid, 1)?;
    let i = random.below(placed.leaf.records.len());
    changed(laid, |image| image.record(page, i)[2 * j..2 * j + 2].copy_from_slice(&field.to_le_bytes()))
}

pub fn unused_value(random: &mut Random, laid: &Laid) -> Option<Image> {
    let d = laid.image.shape().attributes as usize;
    let j = (d < 4).then(|| d + random.below(4 - d))?;
    let field = [1, 0x8000, u16::MAX, 1 + random.number() as u16 % 65_535][random.below(4)];
    with_field(random, laid, j, field)
}

/// A field of one of the attributes in use: the first or the last that holds no value, or any other such.
pub fn outside_bounds(random: &mut Random, laid: &Laid) -> Option<Image> {
    let shape = laid.image.shape();
    let j = random.below(shape.attributes as usize);
    let fields: Vec<u16> =
        (0..=u16::MAX).filter(|&field| !is_value(shape, j, number_in(shape, j, field))).collect();
    let chosen = [0, fields.len().saturating_sub(1), random.below(fields.len().max(1))][random.below(3)];
    with_field(random, laid, j, *fields.get(chosen)?)
}
