//! Sound stores with one clause of "sound" broken (document 01, "Lent memory").
pub mod memory;
mod pages;
mod state;

use super::image::{word_of, Image, Laid, Placed, PAGE_LIMIT};
use crate::random::Random;

/// Breaks a clause of a sound store; `None` where this store cannot break it so.
pub type Break = fn(&mut Random, &Laid) -> Option<Image>;

/// The ways to break a clause, by name.
pub const WAYS: [(&str, Break); 25] = [
    ("one of bits 20-31 of a word", high_bit),
    ("another depth in a word", other_depth),
    ("page number P or above in a word", page_past_limit),
    ("a leaf's word without its page", no_page),
    ("a page in an empty leaf's word", page_for_empty_leaf),
    ("a leaf with another leaf's page", shared_page),
    ("another page in one of a leaf's words", other_word),
    ("a page without a leaf that is not free", pages::page_without_leaf),
    ("count 0 on a leaf's page", pages::count_of_none),
    ("count above b on a leaf's page", pages::count_above_capacity),
    ("records out of order", pages::out_of_order),
    ("a record outside its leaf", pages::outside_leaf),
    ("a key twice", pages::key_twice),
    ("an unused value that is not 0", pages::unused_value),
    ("a number that is no value", pages::outside_bounds),
    ("one more leaf in the tally", state::tally_above),
    ("one leaf less in the tally", state::tally_below),
    ("T too small", state::depth_too_small),
    ("T too large", state::depth_too_large),
    ("T above L", state::depth_above_limit),
    ("P of 0", state::no_pages),
    ("P of 4,097 or more", state::many_pages),
    ("P below a page number in use", state::few_pages),
    ("L of 13 or more", state::high_limit),
    ("L above W", state::limit_above_bits),
];

/// A store with a change.
fn changed(laid: &Laid, change: impl FnOnce(&mut Image)) -> Option<Image> {
    let mut image = laid.image.clone();
    change(&mut image);
    Some(image)
}

/// A random leaf of those that are right.
fn pick<'a>(random: &mut Random, laid: &'a Laid, right: impl Fn(&Placed) -> bool) -> Option<&'a Placed> {
    let leaves: Vec<&Placed> = laid.leaves.iter().filter(|placed| right(placed)).collect();
    (!leaves.is_empty()).then(|| leaves[random.below(leaves.len())])
}

/// A random leaf with at least so many records, and its page.
fn pick_page<'a>(random: &mut Random, laid: &'a Laid, records: usize) -> Option<(&'a Placed, usize)> {
    let placed = pick(random, laid, |placed| placed.page.is_some() && placed.leaf.records.len() >= records)?;
    Some((placed, placed.page?))
}

/// Sets all words of a leaf, or just one of them.
fn set_words(random: &mut Random, image: &mut Image, placed: &Placed, word: u32) {
    let one = placed.cells[random.below(placed.cells.len())];
    let all = random.below(2) == 1;
    placed.cells.iter().filter(|&&a| all || a == one).for_each(|&a| image.dir[a] = word);
}

// ---- words

fn high_bit(random: &mut Random, laid: &Laid) -> Option<Image> {
    let placed = pick(random, laid, |_| true)?;
    let word = placed.word | 1 << random.between(20, 31);
    changed(laid, |image| set_words(random, image, placed, word))
}

fn other_depth(random: &mut Random, laid: &Laid) -> Option<Image> {
    let placed = pick(random, laid, |_| true)?;
    let depth = (placed.leaf.depth() + 1 + random.below(15)) % 16;
    changed(laid, |image| set_words(random, image, placed, word_of(placed.page, depth)))
}

fn page_past_limit(random: &mut Random, laid: &Laid) -> Option<Image> {
    let placed = pick(random, laid, |_| true)?;
    let limit = laid.image.state[PAGE_LIMIT] as usize;
    let page = [limit, limit + random.below(65_535 - limit)][random.below(2)];
    changed(laid, |image| set_words(random, image, placed, word_of(Some(page), placed.leaf.depth())))
}

fn no_page(random: &mut Random, laid: &Laid) -> Option<Image> {
    let (placed, _) = pick_page(random, laid, 1)?;
    changed(laid, |image| set_words(random, image, placed, word_of(None, placed.leaf.depth())))
}

fn page_for_empty_leaf(random: &mut Random, laid: &Laid) -> Option<Image> {
    let placed = pick(random, laid, |placed| placed.page.is_none())?;
    let page = random.below(laid.image.state[PAGE_LIMIT] as usize);
    changed(laid, |image| set_words(random, image, placed, word_of(Some(page), placed.leaf.depth())))
}

fn shared_page(random: &mut Random, laid: &Laid) -> Option<Image> {
    let (_, page) = pick_page(random, laid, 1)?;
    let other = pick(random, laid, |placed| placed.page.is_some_and(|g| g != page))?;
    changed(laid, |image| {
        other.cells.iter().for_each(|&a| image.dir[a] = word_of(Some(page), other.leaf.depth()));
        // the page that it had is free, so that no other clause is broken
        image.set_count(other.page.expect("it has a page"), 0);
    })
}

fn other_word(random: &mut Random, laid: &Laid) -> Option<Image> {
    let placed = pick(random, laid, |placed| placed.cells.len() > 1 && placed.page.is_some())?;
    let limit = laid.image.state[PAGE_LIMIT] as usize;
    if limit == 1 {
        return None;
    }
    let page = (placed.page? + 1 + random.below(limit - 1)) % limit;
    let a = placed.cells[random.below(placed.cells.len())];
    changed(laid, |image| image.dir[a] = word_of(Some(page), placed.leaf.depth()))
}
