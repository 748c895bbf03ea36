//! Whether a store is sound, by the definition of document 01, "Lent memory".
//!
//! In a sound store a page is free or has the records of a leaf, so that the set can only be that of all records in
//! pages that are not free. The judge reads it there and then compares the store with the set's leaves.
use super::image::{page_of, word_of, Image, DEPTH, DEPTH_LIMIT, PAGE_LIMIT, SIGNS, TALLY};
use super::leaves::{greatest_depth, leaf_of, leaves, tally, Record};
use super::model::Model;
use super::refusal::{key_refused, memory_refused, refusal, shape_refused, used_widths};
use crate::cells::Cells;
use crate::host::Refused;

/// The refusal with 1, 14, 15 or 2; else whether the store is sound.
pub fn judge(image: &Image) -> Result<bool, Refused> {
    match early_refusal(image) {
        Some(refused) => Err(refused),
        None => Ok(is_sound(image)),
    }
}

/// 1, 14, 15 or 2, of a call on a lent store.
pub fn early_refusal(image: &Image) -> Option<Refused> {
    let shape = image.shape();
    let (p, l) = (image.state[PAGE_LIMIT], image.state[DEPTH_LIMIT]);
    shape_refused(shape)
        .or_else(|| memory_refused(shape, p, l, image.dir.len(), image.pages.len()).then_some(refusal(2)))
}

/// "P is 1–4,096, L is at most 12 and at most W, and T is at most L". After the early numbers.
pub fn limits_hold(image: &Image) -> bool {
    let [p, l, t] = [PAGE_LIMIT, DEPTH_LIMIT, DEPTH].map(|place| image.state[place]);
    let bits = used_widths(image.shape()).iter().sum::<u32>();
    (1..=4096).contains(&p) && l <= 12 && l <= bits && t <= l
}

/// After the early numbers.
fn is_sound(image: &Image) -> bool {
    if !limits_hold(image) {
        return false;
    }
    let [p, l, t] = [PAGE_LIMIT, DEPTH_LIMIT, DEPTH].map(|place| image.state[place] as usize);
    let model = Model::new(image.shape(), p, l);
    let Some(pages) = (0..p).map(|g| records_of(image, &model, g)).collect::<Option<Vec<_>>>() else {
        return false;
    };
    let mut set = pages.concat();
    set.sort_by(|r, s| r.bits.cmp(&s.bits));
    if set.windows(2).any(|pair| pair[0].key == pair[1].key) {
        return false;
    }
    let leaves = leaves(image.shape().capacity as usize, &set);
    if greatest_depth(&leaves) != t || tally(&leaves) != image.state[TALLY..SIGNS] {
        return false;
    }
    // "no two leaves share a page, every page without a leaf is free" follow: no key stands twice
    Cells::new(model.widths(), t).all(t).iter().all(|cell| {
        let leaf = &leaves[leaf_of(&leaves, &cell.bits)];
        let word = image.dir[cell.address];
        let page = page_of(word);
        word == word_of(page, leaf.depth())
            && match page {
                None => leaf.records.is_empty(),
                Some(g) => g < p && !leaf.records.is_empty() && pages[g] == leaf.records,
            }
    })
}

/// The records of page g: none of a free page; `None` for a count above b or a number that is no value.
fn records_of(image: &Image, model: &Model, g: usize) -> Option<Vec<Record>> {
    let count = image.count(g);
    if count > model.shape.capacity as usize {
        return None;
    }
    let record = |i| {
        let (key, payload) = image.content(g, i);
        (!key_refused(model.shape, key)).then(|| model.record(key, payload))
    };
    (0..count).map(record).collect()
}
