//! Memory damaged as it happens: a word or a page overwritten, parts of an older copy, a wrong tally.
use crate::plain::image::{depth_of, page_of, word_of, Image, DEPTH, PAGE_LIMIT, TALLY};
use crate::random::Random;

/// A sound store as it is, and as it was some calls ago.
pub struct Aged {
    pub now: Image,
    pub older: Image,
}

/// Damages the store of now; `None` where this store cannot be damaged so.
pub type Harm = fn(&mut Random, &Aged) -> Option<Image>;

/// A kind of damage.
pub struct Kind {
    pub name: &'static str,
    pub harm: Harm,
    /// the calls that are never silently wrong: all that they meet of it is told
    pub told_by: &'static [&'static str],
}

/// The calls, by name.
pub const CALLS: [&str; 5] = ["lookup", "query", "range", "insert", "delete"];

/// The kinds of damage. A copied page may be one that was free, or pass for a free one, so that an insert finds too few
/// or too many of them.
pub const KINDS: [Kind; 10] = [
    Kind { name: "words zeroed", harm: words_zeroed, told_by: &CALLS },
    Kind { name: "two words swapped", harm: words_swapped, told_by: &[] },
    Kind { name: "one bit of a word", harm: word_bit, told_by: &[] },
    Kind { name: "another page in a word", harm: other_page, told_by: &CALLS },
    Kind { name: "an older directory", harm: older_directory, told_by: &[] },
    Kind { name: "an older directory and state", harm: older_directory_and_state, told_by: &[] },
    Kind { name: "older pages", harm: older_pages, told_by: &[] },
    Kind {
        name: "a page copied over another",
        harm: page_copied,
        told_by: &["lookup", "query", "range", "delete"],
    },
    Kind { name: "one bit of a page", harm: page_bit, told_by: &[] },
    Kind { name: "one entry of the tally", harm: tally_entry, told_by: &CALLS },
];

/// The store of now with a change, if it is one.
fn changed(aged: &Aged, change: impl FnOnce(&mut Image)) -> Option<Image> {
    let mut image = aged.now.clone();
    change(&mut image);
    (image != aged.now).then_some(image)
}

/// The address of a random cell.
fn cell(random: &mut Random, aged: &Aged) -> usize {
    random.below(1 << aged.now.state[DEPTH])
}

/// One to three words. With T = 0 an all-zero word is that of a store without records.
fn words_zeroed(random: &mut Random, aged: &Aged) -> Option<Image> {
    if aged.now.state[DEPTH] == 0 {
        return None;
    }
    changed(aged, |image| {
        for _ in 0..random.between(1, 3) {
            image.dir[cell(random, aged)] = 0;
        }
    })
}

fn words_swapped(random: &mut Random, aged: &Aged) -> Option<Image> {
    changed(aged, |image| image.dir.swap(cell(random, aged), cell(random, aged)))
}

fn word_bit(random: &mut Random, aged: &Aged) -> Option<Image> {
    changed(aged, |image| image.dir[cell(random, aged)] ^= 1 << random.below(32))
}

/// One word, or all words of a leaf with a page.
fn other_page(random: &mut Random, aged: &Aged) -> Option<Image> {
    let one = cell(random, aged);
    let old = aged.now.dir[one];
    let new = word_of(Some(random.below(aged.now.state[PAGE_LIMIT] as usize)), depth_of(old));
    let all = page_of(old).is_some() && random.below(2) == 1;
    changed(aged, |image| {
        let cells = image.dir[..1 << aged.now.state[DEPTH]].iter_mut().enumerate();
        cells.filter(|(a, word)| *a == one || all && **word == old).for_each(|(_, word)| *word = new);
    })
}

fn older_directory(_: &mut Random, aged: &Aged) -> Option<Image> {
    changed(aged, |image| image.dir.clone_from(&aged.older.dir))
}

fn older_directory_and_state(_: &mut Random, aged: &Aged) -> Option<Image> {
    let pages = aged.now.pages.clone();
    changed(aged, |image| *image = Image { pages, ..aged.older.clone() })
}

fn older_pages(_: &mut Random, aged: &Aged) -> Option<Image> {
    changed(aged, |image| image.pages.clone_from(&aged.older.pages))
}

fn page_copied(random: &mut Random, aged: &Aged) -> Option<Image> {
    let limit = aged.now.state[PAGE_LIMIT] as usize;
    let (from, to) = (random.below(limit), random.below(limit));
    changed(aged, |image| {
        let copied = image.page(from).to_vec();
        image.page(to).copy_from_slice(&copied);
    })
}

/// Of its count or of its records.
fn page_bit(random: &mut Random, aged: &Aged) -> Option<Image> {
    let page = random.below(aged.now.state[PAGE_LIMIT] as usize);
    let used = 2 + 12 * aged.now.count(page);
    changed(aged, |image| image.page(page)[random.below(used)] ^= 1 << random.below(8))
}

fn tally_entry(random: &mut Random, aged: &Aged) -> Option<Image> {
    let place = TALLY + random.below(13);
    let old = aged.now.state[place];
    let new = [0, old.wrapping_add(1), old.wrapping_sub(1), random.below(9) as u32][random.below(4)];
    changed(aged, |image| image.state[place] = new)
}
