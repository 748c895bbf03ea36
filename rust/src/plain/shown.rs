//! What a store shows beside a model's set, and which pages its leaves have before and after a call.
use super::image::{depth_of, page_of, state_words, word_of, Image, DEPTH, PAGE_LIMIT, STATE};
use super::leaves::{greatest_depth, leaf_of, Leaf};
use super::model::Model;
use crate::cells::{Cell, Cells};
use std::collections::BTreeMap;

/// The leaves that a store shows, by their strings, each with its page if it has one.
pub type Pages = BTreeMap<Vec<bool>, Option<usize>>;

/// The leaves that words and pages show at the store's T, in split order, each with its page if it has one. They are
/// read as they stand; of the model only the shape counts. `None` where a word names a depth above T or a page past the
/// P, or where a cell of a leaf has a word other than the leaf's.
pub fn leaves_shown(image: &Image, model: &Model, cells: &Cells) -> Option<Vec<(Leaf, Option<usize>)>> {
    let [p, t] = [PAGE_LIMIT, DEPTH].map(|place| image.state[place] as usize);
    let mut words: BTreeMap<Vec<bool>, Vec<u32>> = BTreeMap::new();
    for Cell { bits, address } in cells.all(t) {
        let word = image.dir[address];
        words.entry(bits.get(..depth_of(word))?.to_vec()).or_default().push(word);
    }
    let record = |(key, payload)| model.record(key, payload);
    let records = |g| (0..image.count(g)).map(|i| record(image.content(g, i))).collect();
    let leaf = |(bits, words): (Vec<bool>, Vec<u32>)| {
        let page = page_of(words[0]);
        let whole = words.len() == 1 << (t - bits.len()) && words.iter().all(|&word| word == words[0]);
        (whole && page.is_none_or(|g| g < p))
            .then(|| (Leaf { bits, records: page.map_or(vec![], records) }, page))
    };
    words.into_iter().map(leaf).collect()
}

/// The pages of the leaves of a model's set, if the store shows exactly these leaves; otherwise what is wrong. The
/// cells are those of the model's widths.
pub fn pages_shown(image: &Image, model: &Model, cells: &Cells) -> Result<Pages, String> {
    let leaves = model.leaves();
    let state = state_words(model, &leaves);
    if image.state[..STATE] != state {
        return Err(format!("state {:?}, expected {state:?}", image.state));
    }
    let mut words = vec![None; leaves.len()];
    for cell in cells.all(greatest_depth(&leaves)) {
        let word = image.dir[cell.address];
        // "Every cell whose split bits begin with a leaf holds that leaf's word."
        if *words[leaf_of(&leaves, &cell.bits)].get_or_insert(word) != word {
            return Err(format!("two words of one leaf: {:?}", cell.bits));
        }
    }
    let mut image = image.clone();
    let mut pages = Pages::new();
    for (leaf, word) in leaves.into_iter().zip(words) {
        let page = page_shown(&mut image, model, &leaf, word.expect("each leaf has a cell"))?;
        if page.is_some() && pages.values().any(|&other| other == page) {
            return Err(format!("page {page:?} of two leaves"));
        }
        pages.insert(leaf.bits, page);
    }
    let free = |g: &usize| !pages.values().any(|&page| page == Some(*g));
    match (0..model.page_limit).filter(free).find(|&g| image.page(g)[..2] != [0, 0]) {
        Some(g) => Err(format!("page {g} has no leaf and is not free")),
        None => Ok(pages),
    }
}

/// The page of a leaf with this word, if the word is right and the page has the leaf's records.
fn page_shown(image: &mut Image, model: &Model, leaf: &Leaf, word: u32) -> Result<Option<usize>, String> {
    let page = page_of(word);
    let depth = leaf.depth();
    if word != word_of(page, depth) || page.is_none() != leaf.records.is_empty() {
        return Err(format!("word {word:#x} of {leaf:?}"));
    }
    let Some(g) = page else { return Ok(None) };
    if g >= model.page_limit {
        return Err(format!("page {g} of {leaf:?}"));
    }
    let count = (leaf.records.len() as u16).to_le_bytes();
    let records: Vec<u8> = leaf.records.iter().flat_map(|record| record.bytes()).collect();
    let bytes = [&count[..], &records].concat();
    if image.page(g)[..bytes.len()] != bytes {
        return Err(format!("page {g}: {:?}, expected {bytes:?}", image.page(g)));
    }
    Ok(page)
}

/// "which page a leaf that newly gets one takes, of those free, divided or joined. Every other leaf keeps its page."
pub fn pages_kept(before: &Pages, after: &Pages) -> Result<(), String> {
    for (bits, page) in after {
        let old = before.get(bits).copied().flatten();
        if page.is_none() || *page == old {
            continue;
        }
        if old.is_some() {
            return Err(format!("leaf {bits:?} had page {old:?} and has {page:?}"));
        }
        // free before, or of a leaf that is none any more
        if let Some((other, _)) =
            before.iter().find(|(other, old)| *old == page && after.contains_key(*other))
        {
            return Err(format!("leaf {bits:?} takes page {page:?} of leaf {other:?}"));
        }
    }
    Ok(())
}
