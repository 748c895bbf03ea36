//! The steps on directory words.

/// What a word says of its leaf.
#[derive(Clone, Copy, Debug, PartialEq, Eq)]
pub enum Leaf {
    Empty { depth: u32 },
    Page { page: u32, depth: u32 },
}

#[repr(C)]
struct LeafFields {
    paged: u32,
    page: u32,
    depth: u32,
}

extern "C" {
    fn probe_pack_empty(depth: u32) -> u32;
    fn probe_pack_page(page: u32, depth: u32) -> u32;
    fn probe_unpack(word: u32) -> LeafFields;
}

/// The word of a leaf without a page.
pub fn pack_empty(depth: u32) -> Option<u32> {
    // SAFETY: the depth is below 16, as the `requires` asks; numbers alone go in and out.
    (depth < 16).then(|| unsafe { probe_pack_empty(depth) })
}

/// The word of a leaf with a page.
pub fn pack_page(page: u32, depth: u32) -> Option<u32> {
    // SAFETY: page and depth are below their bounds, as the `requires` asks; numbers alone go in and out.
    (page < 65535 && depth < 16).then(|| unsafe { probe_pack_page(page, depth) })
}

/// The leaf that a word names.
pub fn unpack(word: u32) -> Leaf {
    // SAFETY: numbers alone go in and out, and the function has no `requires`.
    match unsafe { probe_unpack(word) } {
        LeafFields { paged: 0, page: 0, depth } => Leaf::Empty { depth },
        LeafFields { paged: 1, page, depth } => Leaf::Page { page, depth },
        LeafFields { paged, page, depth } => panic!("no leaf has the numbers {paged}, {page}, {depth}"),
    }
}
