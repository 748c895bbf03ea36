//! The steps on directory words, compared with strings of bits: "packs the page number plus one into bits 0–15,
//! or 0 for no page, and the leaf's depth into bits 16–19; bit 0 is the least significant and the rest are zero".
use mdeh_tests::compare::Comparisons;
use mdeh_tests::probe::words::{pack_empty, pack_page, unpack, Leaf};
use mdeh_tests::random::Random;

const SEED: u64 = 0x6d64_6568_2d30_3034;

/// The word with this depth and this page field.
fn word(depth: u32, field: u32) -> u32 {
    let bits = format!("{:012b}{depth:04b}{field:016b}", 0);
    u32::from_str_radix(&bits, 2).expect("32 bits")
}

/// The leaf that a word names; its depth is all of bits 16–31.
fn leaf(word: u32) -> Leaf {
    let bits = format!("{word:032b}");
    let number = |bits| u32::from_str_radix(bits, 2).expect("16 bits");
    let (depth, field) = (number(&bits[..16]), number(&bits[16..]));
    match field {
        0 => Leaf::Empty { depth },
        _ => Leaf::Page { page: field - 1, depth },
    }
}

#[test]
fn words_of_every_page_and_depth_are_packed_and_taken_apart() {
    let mut count = Comparisons::default();
    for depth in 0..16 {
        let packed = pack_empty(depth);
        count.same(packed, Some(word(depth, 0)), format_args!("depth {depth}"));
        count.same(unpack(packed.unwrap()), Leaf::Empty { depth }, format_args!("depth {depth}"));
        for page in 0..65_535 {
            let about = format_args!("page {page}, depth {depth}");
            let packed = pack_page(page, depth);
            count.same(packed, Some(word(depth, page + 1)), about);
            count.same(unpack(packed.unwrap()), Leaf::Page { page, depth }, about);
        }
    }
    count.end(2 * 16 * 65_536);
}

#[test]
fn random_words_are_taken_apart_whatever_their_bits() {
    let mut count = Comparisons::default();
    let mut random = Random::new(SEED);
    for _ in 0..500_000 {
        for word in [random.number() as u32, random.short(32) as u32, (random.number() as u32) & 0xffff_0000]
        {
            count.same(unpack(word), leaf(word), format_args!("word {word:#x}"));
        }
    }
    count.end(3 * 500_000);
}

#[test]
fn what_has_no_word_is_not_packed() {
    let mut count = Comparisons::default();
    for depth in [16, 17, 1 << 16, u32::MAX] {
        count.same(pack_empty(depth), None, format_args!("depth {depth}"));
        count.same(pack_page(0, depth), None, format_args!("depth {depth}"));
    }
    for page in [65_535, 65_536, u32::MAX] {
        count.same(pack_page(page, 0), None, format_args!("page {page}"));
    }
    count.end(2 * 4 + 3);
}
