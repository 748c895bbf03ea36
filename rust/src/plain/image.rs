//! A store's state, words and pages, written from scratch (document 01, "Lent memory").
use super::leaves::{greatest_depth, leaf_of, tally, Leaf, Record};
use super::model::Model;
use super::refusal::page_size;
use super::value::number_in;
use crate::cells::Cells;
use crate::host::Shape;
use crate::random::Random;

/// The state's words: d, the four widths, b, P, L, T, the tally at depths 0 to 12, and the marks of signed attributes.
pub const STATE: usize = 23;

/// Where P, L, T, the tally and the marks stand in the state.
pub const PAGE_LIMIT: usize = 6;
pub const DEPTH_LIMIT: usize = 7;
pub const DEPTH: usize = 8;
pub const TALLY: usize = 9;
pub const SIGNS: usize = 22;

/// A store as it is lent.
#[derive(Clone, Debug, PartialEq)]
pub struct Image {
    pub state: Vec<u32>,
    pub dir: Vec<u32>,
    pub pages: Vec<u8>,
}

impl Image {
    /// Random memory of these lengths.
    pub fn random(random: &mut Random, words: usize, bytes: usize) -> Image {
        Image { state: random.words(STATE), dir: random.words(words), pages: random.bytes(bytes) }
    }

    pub fn shape(&self) -> Shape {
        let s = &self.state;
        Shape { attributes: s[0], widths: [s[1], s[2], s[3], s[4]], capacity: s[5], signs: s[SIGNS] }
    }

    /// The bytes of page g.
    pub fn page(&mut self, g: usize) -> &mut [u8] {
        let size = page_size(self.shape());
        &mut self.pages[g * size..(g + 1) * size]
    }

    /// The bytes of record i of page g.
    pub fn record(&mut self, g: usize, i: usize) -> &mut [u8] {
        &mut self.page(g)[2 + 12 * i..14 + 12 * i]
    }

    pub fn set_count(&mut self, g: usize, count: u16) {
        self.page(g)[..2].copy_from_slice(&count.to_le_bytes());
    }

    /// The count of page g.
    pub fn count(&self, g: usize) -> usize {
        self.number(g, 0).into()
    }

    /// Key and payload of record i of page g.
    pub fn content(&self, g: usize, i: usize) -> ([i32; 4], u32) {
        let (at, shape) = (2 + 12 * i, self.shape());
        let key = [0, 1, 2, 3].map(|j| number_in(shape, j, self.number(g, at + 2 * j)));
        (key, u32::from(self.number(g, at + 8)) | u32::from(self.number(g, at + 10)) << 16)
    }

    /// Whether page g has the same bytes in another store of this shape.
    pub fn same_page(&self, other: &Image, g: usize) -> bool {
        let size = page_size(self.shape());
        let bytes = g * size..(g + 1) * size;
        self.pages[bytes.clone()] == other.pages[bytes]
    }

    /// The little-endian number of 16 bits at a place of page g.
    fn number(&self, g: usize, place: usize) -> u16 {
        let at = g * page_size(self.shape()) + place;
        u16::from_le_bytes([self.pages[at], self.pages[at + 1]])
    }
}

/// A leaf as the store shows it: its page if it has one, its word, and the addresses of its cells, that of
/// its string followed by zeros first.
#[derive(Clone, Debug)]
pub struct Placed {
    pub leaf: Leaf,
    pub page: Option<usize>,
    pub word: u32,
    pub cells: Vec<usize>,
}

/// A sound store of a model's set, and where its leaves are.
#[derive(Clone, Debug)]
pub struct Laid {
    pub image: Image,
    pub leaves: Vec<Placed>,
    pub free_pages: Vec<usize>,
}

impl Laid {
    /// Pages are taken in random order. All that document 01 leaves free is random: words at 2^T and above, bytes past
    /// counts, the contents of free pages; so is what stands past 2^L words and P pages, of random length.
    pub fn new(random: &mut Random, model: &Model) -> Laid {
        let leaves = model.leaves();
        let t = greatest_depth(&leaves);
        assert!(t <= model.depth_limit);
        let mut free_pages: Vec<usize> = (0..model.page_limit).collect();
        random.shuffle(&mut free_pages);
        let state = state_words(model, &leaves);
        let places = place(model, leaves, t, &mut free_pages);
        let more = random.between(0, 9) as usize;
        let mut image = Image {
            state,
            dir: random.words((1 << model.depth_limit) + more),
            pages: random.bytes(model.page_limit * page_size(model.shape) + 7 * more),
        };
        for Placed { leaf, page, word, cells } in &places {
            cells.iter().for_each(|&a| image.dir[a] = *word);
            page.iter().for_each(|&g| write_page(&mut image, g, &leaf.records));
        }
        free_pages.iter().for_each(|&g| image.set_count(g, 0));
        Laid { image, leaves: places, free_pages }
    }
}

/// The leaves with their pages, words and cells in a directory of depth t.
fn place(model: &Model, leaves: Vec<Leaf>, t: usize, free_pages: &mut Vec<usize>) -> Vec<Placed> {
    let mut cells = vec![vec![]; leaves.len()];
    for cell in Cells::new(model.widths(), t).all(t) {
        cells[leaf_of(&leaves, &cell.bits)].push(cell.address);
    }
    let placed = |(leaf, cells): (Leaf, Vec<usize>)| {
        // "A leaf is empty or has one page."
        let page = (!leaf.records.is_empty()).then(|| free_pages.pop().expect("P pages are enough"));
        Placed { word: word_of(page, leaf.depth()), leaf, page, cells }
    };
    leaves.into_iter().zip(cells).map(placed).collect()
}

/// "packs the page number plus one into bits 0–15, or 0 for no page, and the leaf's depth into bits 16–19".
pub fn word_of(page: Option<usize>, depth: usize) -> u32 {
    (depth as u32) << 16 | page.map_or(0, |g| g as u32 + 1)
}

/// The page that a word names.
pub fn page_of(word: u32) -> Option<usize> {
    (word as usize & 0xffff).checked_sub(1)
}

/// The depth that a word names; 16 or more where one of bits 20-31 is set.
pub fn depth_of(word: u32) -> usize {
    word as usize >> 16
}

/// The state of a store that shows these leaves.
pub fn state_words(model: &Model, leaves: &[Leaf]) -> Vec<u32> {
    let Shape { attributes, widths, capacity, signs } = model.shape;
    let limits = [model.page_limit as u32, model.depth_limit as u32, greatest_depth(leaves) as u32];
    [&[attributes][..], &widths, &[capacity], &limits, &tally(leaves), &[signs]].concat()
}

/// "count (2), then records in split order".
fn write_page(image: &mut Image, g: usize, records: &[Record]) {
    image.set_count(g, records.len() as u16);
    for (i, record) in records.iter().enumerate() {
        image.record(g, i).copy_from_slice(&record.bytes());
    }
}
