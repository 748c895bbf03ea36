//! States that no sound store has.
use super::changed;
use crate::cells::Cells;
use crate::plain::image::{Image, Laid, DEPTH, DEPTH_LIMIT, PAGE_LIMIT, TALLY};
use crate::plain::refusal::{page_size, used_widths};
use crate::random::Random;

pub fn tally_above(random: &mut Random, laid: &Laid) -> Option<Image> {
    let place = TALLY + random.below(13);
    changed(laid, |image| image.state[place] = image.state[place].wrapping_add(1))
}

pub fn tally_below(random: &mut Random, laid: &Laid) -> Option<Image> {
    let place = TALLY + random.below(13);
    changed(laid, |image| image.state[place] = image.state[place].wrapping_sub(1))
}

pub fn depth_too_small(random: &mut Random, laid: &Laid) -> Option<Image> {
    let t = laid.image.state[DEPTH];
    (t > 0).then_some(())?;
    changed(laid, |image| image.state[DEPTH] = random.below(t as usize) as u32)
}

/// At most L, so that the words of a greater depth are there, right ones too: each word as the cell that it halves.
pub fn depth_too_large(random: &mut Random, laid: &Laid) -> Option<Image> {
    let (t, l) = (laid.image.state[DEPTH] as usize, laid.image.state[DEPTH_LIMIT] as usize);
    (t < l).then_some(())?;
    let deeper = t + 1 + random.below(l - t);
    let cells = Cells::new(&used_widths(laid.image.shape()), deeper);
    changed(laid, |image| {
        for cell in cells.all(deeper) {
            image.dir[cell.address] = image.dir[cells.address(&cell.bits[..t])];
        }
        image.state[DEPTH] = deeper as u32;
    })
}

pub fn depth_above_limit(random: &mut Random, laid: &Laid) -> Option<Image> {
    let l = laid.image.state[DEPTH_LIMIT];
    let depth =
        [l + 1, 13, 32, 64, u32::MAX, random.between(u64::from(l) + 1, 1 << 31) as u32][random.below(6)];
    changed(laid, |image| image.state[DEPTH] = depth)
}

pub fn no_pages(_: &mut Random, laid: &Laid) -> Option<Image> {
    changed(laid, |image| image.state[PAGE_LIMIT] = 0)
}

/// With free pages lent, so that no other clause is broken.
pub fn many_pages(random: &mut Random, laid: &Laid) -> Option<Image> {
    let limit = 4097 + random.below(2) * random.below(200);
    changed(laid, |image| {
        let size = page_size(image.shape());
        let used = size * image.state[PAGE_LIMIT] as usize;
        image.pages.truncate(used);
        image.pages.resize(limit * size, 0);
        image.state[PAGE_LIMIT] = limit as u32;
    })
}

pub fn few_pages(random: &mut Random, laid: &Laid) -> Option<Image> {
    let greatest = laid.leaves.iter().filter_map(|placed| placed.page).max()?;
    let limit = [greatest, random.below(greatest + 1)][random.below(2)];
    changed(laid, |image| image.state[PAGE_LIMIT] = limit as u32)
}

/// With enough words lent.
fn with_limit(laid: &Laid, random: &mut Random, limit: usize) -> Option<Image> {
    changed(laid, |image| {
        let more = (1usize << limit).saturating_sub(image.dir.len());
        image.dir.extend(random.words(more));
        image.state[DEPTH_LIMIT] = limit as u32;
    })
}

pub fn high_limit(random: &mut Random, laid: &Laid) -> Option<Image> {
    let limit = 13 + random.below(2);
    with_limit(laid, random, limit)
}

pub fn limit_above_bits(random: &mut Random, laid: &Laid) -> Option<Image> {
    let bits = used_widths(laid.image.shape()).iter().sum::<u32>() as usize;
    (bits < 12).then(|| bits + 1 + random.below(12 - bits)).and_then(|limit| with_limit(laid, random, limit))
}
