//! The call check, compared with a judge that follows document 01's definition of a sound store.
use mdeh_tests::compare::Comparisons;
use mdeh_tests::lent::LentStore;
use mdeh_tests::plain::damage::WAYS;
use mdeh_tests::plain::image::{Image, Laid, DEPTH, SIGNS, STATE};
use mdeh_tests::plain::judge::judge;
use mdeh_tests::plain::refusal::{bad_width, refusal};
use mdeh_tests::plain::samples::random_model;
use mdeh_tests::random::Random;

const SEED: u64 = 0x6d64_6568_2d30_3037;

#[test]
fn sound_stores() {
    let mut count = Comparisons::default();
    let mut random = Random::new(SEED);
    for _ in 0..1000 {
        let model = random_model(&mut random);
        let image = Laid::new(&mut random, &model).image;
        let about = format_args!("{model:?}");
        count.same(judge(&image), Ok(true), about);
        count.same(LentStore::new(&mut random, &image).check(), Ok(true), about);
    }
    count.end(1000 * 2);
}

#[test]
fn widths_and_marks_past_d_are_ignored() {
    let mut count = Comparisons::default();
    let mut random = Random::new(SEED);
    for _ in 0..500 {
        let model = random_model(&mut random);
        let mut image = Laid::new(&mut random, &model).image;
        for j in model.widths().len()..4 {
            image.state[1 + j] = random.number() as u32;
        }
        image.state[SIGNS] ^= (random.number() as u32) << model.widths().len();
        count.same(LentStore::new(&mut random, &image).check(), Ok(true), format_args!("{:?}", image.state));
    }
    count.end(500);
}

#[test]
fn each_clause_broken_in_turn() {
    let mut count = Comparisons::default();
    let mut random = Random::new(SEED);
    for (name, break_clause) in WAYS {
        let mut stores = 0;
        while stores < 100 {
            let model = random_model(&mut random);
            let laid = Laid::new(&mut random, &model);
            let Some(image) = break_clause(&mut random, &laid) else { continue };
            stores += 1;
            let about = format_args!("{name}: {model:?}, state {:?}", image.state);
            count.same(judge(&image), Ok(false), about);
            count.same(LentStore::new(&mut random, &image).check(), Ok(false), about);
        }
    }
    count.end(25 * 100 * 2);
}

#[test]
fn tally_wrong_at_each_depth() {
    let mut count = Comparisons::default();
    let mut random = Random::new(SEED);
    for _ in 0..100 {
        let model = random_model(&mut random);
        let laid = Laid::new(&mut random, &model);
        for x in 0..13 {
            for wrong in [1, 256, 65_536, 1 << 31, u32::MAX] {
                let mut image = laid.image.clone();
                image.state[9 + x] = image.state[9 + x].wrapping_add(wrong);
                let about = format_args!("{:?}", image.state);
                count.same(LentStore::new(&mut random, &image).check(), Ok(false), about);
            }
        }
    }
    count.end(100 * 13 * 5);
}

/// One word, byte or word of the state is another. Where it is left free, the store is still sound.
#[test]
fn one_number_changed_at_random() {
    let mut count = Comparisons::default();
    let mut random = Random::new(SEED);
    let mut sound = 0;
    for _ in 0..500 {
        let model = random_model(&mut random);
        let laid = Laid::new(&mut random, &model);
        for _ in 0..20 {
            let mut image = laid.image.clone();
            change_one(&mut random, &mut image);
            let found = LentStore::new(&mut random, &image).check();
            sound += u64::from(found == Ok(true));
            count.same(found, judge(&image), format_args!("{model:?}, state {:?}", image.state));
        }
    }
    println!("{sound} of them sound");
    assert!((500..7_500).contains(&sound));
    count.end(500 * 20);
}

fn change_one(random: &mut Random, image: &mut Image) {
    let small = random.between(0, 20) as u32;
    match random.below(4) {
        0 => {
            let place = random.below(1 << image.state[DEPTH]);
            image.dir[place] =
                [image.dir[place] ^ 1 << small, random.number() as u32, small << 16][random.below(3)];
        }
        1 => {
            let place = random.below(image.pages.len());
            image.pages[place] ^= 1 << random.below(8);
        }
        2 => {
            let place = random.below(STATE);
            image.state[place] = [small, image.state[place] ^ 1 << random.below(32)][random.below(2)];
        }
        _ => {
            // a count, which may still be that of a smaller set
            let g = random.below(image.state[6] as usize);
            let count = image.page(g)[0].saturating_sub(1);
            image.set_count(g, u16::from(count));
        }
    }
}

#[test]
fn early_refusals() {
    let mut count = Comparisons::default();
    let mut random = Random::new(SEED);
    for _ in 0..200 {
        let model = random_model(&mut random);
        let laid = Laid::new(&mut random, &model);
        let words = random.below(1 << model.depth_limit);
        let bytes = random.below(laid.image.clone().page(0).len() * model.page_limit);
        let mut images = vec![laid.image; 8];
        images[0].state[0] = [0, 5, 257, u32::MAX][random.below(4)];
        let j = random.below(model.widths().len());
        images[1].state[1 + j] = [0, 17, 257, u32::MAX][random.below(4)];
        images[2].state[5] = [0, 17, 257, u32::MAX][random.below(4)];
        images[3].dir.truncate(words);
        images[4].pages.truncate(bytes);
        // nothing lent
        images[5].dir.clear();
        images[5].state[5] = 0;
        // wild limits
        images[6].state[6] = [5000, 1 << 16, 1 << 31, u32::MAX][random.below(4)];
        images[7].state[7] = [20, 31, 32, 33, 63, 64, 65, 128, 256, u32::MAX][random.below(10)];
        for (i, image) in images.iter().enumerate() {
            let expected = Err(match i {
                0 => refusal(1),
                1 => bad_width(j as u32),
                2 | 5 => refusal(15),
                _ => refusal(2),
            });
            let about = format_args!("{:?}", image.state);
            count.same(judge(image), expected, about);
            count.same(LentStore::new(&mut random, image).check(), expected, about);
        }
        let short = Image { state: images[0].state[..random.below(STATE)].to_vec(), ..images[0].clone() };
        let found = LentStore::new(&mut random, &short).check();
        count.same(found, Err(refusal(1)), format_args!("{:?}", short.state));
    }
    count.end(200 * (8 * 2 + 1));
}
