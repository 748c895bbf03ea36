//! The plain store, call by call, against the list scanned in full and the judge of soundness.
use super::Store;
use mdeh_tests::compare::Comparisons;
use mdeh_tests::host::Shape;
use mdeh_tests::plain::file::{file_of, load};
use mdeh_tests::plain::image::Image;
use mdeh_tests::plain::judge::judge;
use mdeh_tests::plain::model::Model;
use mdeh_tests::plain::refusal::{page_size, refusal};
use mdeh_tests::plain::samples::{query_of, random_key, random_payload, range_of};
use mdeh_tests::random::Random;
use mdeh_tests::shapes::random_shape;

#[test]
fn random_calls_are_answered_as_the_list_answers_them() {
    let mut count = Comparisons::default();
    let mut random = Random::new(0x6d64_6568_2d30_3039);
    for _ in 0..400 {
        let shape = Shape { signs: 0, ..random_shape(&mut random, 20, 5) };
        let (words, bytes) = (1 + random.below(300), (1 + random.below(30)) * page_size(shape));
        let mut store = Store::new(shape, words, bytes);
        let mut model = Model::fresh(shape, words, bytes).expect("the shape is within its bounds");
        for turn in 0..200 {
            let mut key = random_key(&mut random, &model);
            // one in sixteen may be past a width
            if random.below(16) == 0 {
                key[random.below(4)] ^= 1 << random.below(32);
            }
            let about = format_args!("{shape:?}, {words} words, {bytes} bytes, turn {turn}, {key:?}");
            // more inserts at first, more deletes at last
            if random.below(200) > turn {
                let payload = random_payload(&mut random);
                let found = store.insert(key, payload).map_err(refusal);
                count.same(found, model.insert(key, payload), about);
            } else {
                count.same(store.delete(key), model.delete(key), about);
            }
            let (state, dir, pages) = store.image();
            count.same(judge(&Image { state, dir, pages }), Ok(true), about);
            count.same(store.check(), true, about);
            let key = random_key(&mut random, &model);
            let expected = model.lookup(key).map(|(payload, _, depth)| (payload, depth));
            count.same(store.lookup(key), expected, about);
            let query = query_of(random.below(16), key);
            let length = random.below(200);
            let mut out = [random.bytes(length), vec![]];
            out[1] = out[0].clone();
            let found = store.query(query, &mut out[0]);
            let found = found.map(|(written, total, reads)| (written as u64, total as u64, reads as u64));
            count.same(found.map_err(refusal), model.query(query, &mut out[1]), about);
            count.same(&out[0], &out[1], about);
            let keys = [key, random_key(&mut random, &model)];
            let subset = random.below(16);
            let range = range_of(&mut random, &model, subset, keys);
            let about = format_args!("{shape:?}, {words} words, {bytes} bytes, turn {turn}, {range:?}");
            let found = store.range(range, &mut out[0]);
            let found = found.map(|(written, total, reads)| (written as u64, total as u64, reads as u64));
            count.same(found.map_err(refusal), model.range(range, &mut out[1]), about);
            count.same(&out[0], &out[1], about);
        }
    }
    count.end(400 * 200 * 8);
}

#[test]
fn files_are_written_and_read_as_the_plain_model_does() {
    let mut count = Comparisons::default();
    let mut random = Random::new(0x6d64_6568_2d30_3039);
    let mut met = [0; 14];
    for _ in 0..3000 {
        let shape = Shape { signs: 0, ..random_shape(&mut random, 20, 5) };
        let mut store = Store::new(shape, 256, 40 * page_size(shape));
        let mut model = Model::fresh(shape, 256, 40 * page_size(shape)).expect("accepted");
        for _ in 0..random.below(30) {
            let (key, payload) = (random_key(&mut random, &model), random_payload(&mut random));
            let _ = (store.insert(key, payload), model.insert(key, payload));
        }
        let mut file = file_of(&model);
        let about = format_args!("{file:?}");
        let mut out = vec![7; file.len() + random.below(2)];
        count.same(store.save(&mut out), Ok(file.len()), about);
        count.same(&out[..file.len()], &file[..], about);
        count.same(store.save(&mut out[..file.len() - 1]), Err(2), about);
        // one in three has a bit changed, in the records or the trailer
        if random.below(3) == 0 {
            let place = random.below(file.len() - 8);
            let place = if place < file.len() - 24 { place } else { place + 8 };
            file[place] ^= 1 << random.below(8);
        }
        let (words, bytes) = (1 << random.below(9), (1 + random.below(20)) * page_size(shape));
        let mut other = Store::new(shape, words, bytes);
        let _ = other.insert([0; 4], 1);
        let (found, expected) = (other.load(&file), load(&file, words, bytes));
        met[found.err().unwrap_or(0) as usize] += 1;
        let about = format_args!("{words} words, {bytes} bytes: {file:?}");
        count.same(found.map_err(refusal), expected.as_ref().map(|_| ()).map_err(|&refused| refused), about);
        if expected.is_ok() {
            let (state, dir, pages) = other.image();
            count.same(judge(&Image { state, dir, pages }), Ok(true), about);
            count.same(other.save(&mut out), Ok(file.len()), about);
            count.same(&out[..file.len()], &file[..], about);
        }
    }
    assert!([0, 6, 7, 12, 13].iter().all(|&number| met[number] > 50), "{met:?}");
    count.end(3000 * 4 + met[0] * 3);
}
