//! The SVG.
mod common;

use common::{
    asked_picture, even_store, gateway_file, picture, random_picture, random_store, signed_picture,
};
use common::{store, GATEWAY, PAGES, STORES};
use mdeh::Shape;
use mdeh_tests::random::Random;
use mdeh_view::owned::{self, Owned};
use mdeh_view::picture::Picture;
use mdeh_view::svg::draw;

const SEED: u64 = 0x7669_6577_2d73_7667;

/// Up to so many leaves, each is drawn on its own.
const EACH: usize = 64;

/// Every picture has fewer bytes.
const LIMIT: usize = 300_000;

/// Fails unless each element is closed in its turn, its attributes are quoted, and no text has a bare `&`.
fn well_formed(svg: &str) {
    let mut open: Vec<&str> = Vec::new();
    let mut parts = svg.split('<');
    assert_eq!(parts.next(), Some(""));
    for part in parts {
        let (tag, text) = part.split_once('>').expect("a tag is closed");
        let entity = |rest: &str| ["amp;", "lt;", "gt;"].iter().any(|name| rest.starts_with(name));
        assert!(text.split('&').skip(1).all(entity), "{text}");
        if let Some(name) = tag.strip_prefix('/') {
            assert_eq!(open.pop(), Some(name));
            continue;
        }
        let (tag, alone) = tag.strip_suffix('/').map_or((tag, false), |tag| (tag, true));
        let (name, attributes) = tag.split_once(' ').unwrap_or((tag, ""));
        quoted(attributes);
        if !alone {
            open.push(name);
        }
    }
    assert!(open.is_empty());
}

/// Fails unless the attributes have the form `name="value"`, each name once.
fn quoted(attributes: &str) {
    let mut names: Vec<&str> = Vec::new();
    let mut rest = attributes;
    while !rest.is_empty() {
        let (name, after) = rest.split_once("=\"").expect("a value in quotes");
        let (_, after) = after.split_once('"').expect("quotes are closed");
        assert!(!names.contains(&name) && name.bytes().all(|byte| byte.is_ascii_alphanumeric()), "{name}");
        names.push(name);
        rest = after.trim_start();
    }
}

/// How many points or strokes the paths of a class have in a part of the picture.
fn strokes(part: &str, class: &str) -> usize {
    let start = format!("<path class=\"{class}\" d=\"");
    let paths = part.split(&start).skip(1);
    paths.map(|path| path.split('"').next().unwrap_or("").matches('M').count()).sum()
}

/// What stands between two texts of the picture, without them.
fn between<'s>(svg: &'s str, start: &str, end: &str) -> &'s str {
    let (_, after) = svg.split_once(start).expect(start);
    after.split_once(end).expect(end).0
}

/// The picture is well formed and small, and has every cell, leaf, page and record, as far as they are drawn one by
/// one.
fn compare(picture: &Picture) {
    let svg = draw(picture);
    well_formed(&svg);
    println!("{} bytes, {} leaves", svg.len(), picture.leaves.len());
    assert!(svg.len() < LIMIT);
    assert!(!svg.contains("NaN") && !svg.contains("inf"));
    let titles = |start: &str| svg.matches(&format!("<title>{start}")).count();
    assert_eq!(titles("cell "), if picture.depth <= 8 { picture.cells.len() } else { 0 });
    assert_eq!(svg.contains("cells are not drawn one by one"), picture.depth > 8);
    let planes = [0, 1, 1, 3, 6][picture.attributes.len()];
    if picture.leaves.len() <= EACH {
        // among the regions, as a page, and for one and two attributes among the keys
        let tiles = if picture.attributes.len() <= 2 { picture.leaves.len() } else { 0 };
        assert_eq!(titles("leaf "), picture.leaves.len() + picture.pages_used() + tiles);
        assert_eq!(titles("region "), picture.leaves.len() - 1);
        let points: usize = ["record", "record fine", "record other", "record other fine"]
            .map(|c| strokes(&svg, c))
            .iter()
            .sum();
        assert_eq!(points, planes * picture.records().count());
    } else {
        assert_eq!(svg.matches(" a square</text>").count(), planes);
        assert_eq!(strokes(&svg, "record") + strokes(&svg, "record fine"), 0);
    }
    assert_eq!(svg.matches("class=\"frame\"").count(), planes + usize::from(picture.depth <= 8));
    marked(picture, &svg);
}

/// Among the regions and among the pages, the leaves that are read are marked, and no others; so are the leaves in
/// which 6 is next. The pages that are read are told.
fn marked(picture: &Picture, svg: &str) {
    let (rest, pages) = svg.split_once(">Pages by number: ").expect("the last part");
    let (rest, regions) = rest.split_once(">Regions by depth, ").expect("the part before");
    let reads = (0..picture.leaves.len()).filter(|&place| picture.read(place).is_some()).count();
    if let Some(asked) = &picture.asked {
        assert_eq!(reads, asked.answer.reads);
        assert!(svg.contains("class=\"heading answer\">"));
        let (_, told) = rest.split_once(">Pages that are read<").expect("a part for them");
        assert_eq!(told.matches(" match, ").count(), reads.min(24));
    }
    let titled = |part: &str| part.matches(" match): ").count();
    if picture.leaves.len() <= EACH || reads <= EACH {
        assert_eq!([titled(pages), titled(regions)], [reads; 2]);
        assert_eq!([strokes(pages, "read"), strokes(regions, "read")], [0; 2]);
    } else {
        assert_eq!((titled(pages), titled(regions), strokes(pages, "read")), (0, 0, reads));
        assert!((1..=reads).contains(&strokes(regions, "read")));
    }
    let full = picture.fullest.leaves().len();
    assert_eq!([strokes(pages, "full"), strokes(regions, "full")], [full; 2]);
    // a leaf that is not drawn on its own is in a run
    let runs = |class: &str| strokes(regions, class) > 0;
    let unread = picture.pages_used() > reads && picture.leaves.len() > EACH;
    assert_eq!(runs("plain") || runs("pale"), unread);
}

#[test]
fn stores_without_records() {
    for lines in ["shape 1 1 1", "shape 2 8 8 4", "shape 3 1 2 3 16", "shape 4 16 16 16 16 1"] {
        compare(&picture(lines));
    }
}

#[test]
fn printed_run() {
    compare(&picture(include_str!("../../crates/stock/stdin")));
}

#[test]
fn random_stores() {
    let mut random = Random::new(SEED);
    for store in STORES {
        compare(&random_picture(&mut random, store));
    }
}

/// The axes end with the least and the greatest values, and each key has its place between them.
#[test]
fn signed_axes() {
    let lines = "shape 2 10 4 2\nput -512 0 1\nput 511 15 2\nput 0 8 3\nput -1 8 4";
    let picture = signed_picture(0b01, lines);
    compare(&picture);
    let svg = draw(&picture);
    for text in ["width 10 (signed), 4,", ">-512</text>", ">511</text>", ">0</text>", ">15</text>"] {
        assert!(svg.contains(text), "{text}");
    }
    // the same keys by their encodings
    let plain = draw(&common::picture("shape 2 10 4 2\nput 0 0 1\nput 1023 15 2\nput 512 8 3\nput 511 8 4"));
    let elements = |svg: &str| -> Vec<String> {
        let shapes = svg.lines().filter(|line| !line.starts_with("<text "));
        shapes.map(|line| line.split("<title>leaf").next().unwrap_or("").to_owned()).collect()
    };
    assert_eq!(elements(&svg), elements(&plain));
    compare(&signed_picture(0b10, "shape 2 1 1 1\nput 0 -1 1\nput 1 0 2"));
}

/// Names stand in the picture as they are.
#[test]
fn names_are_escaped() {
    let names = ["a<b>&\"c'", "</text>&amp;", "<script>", "&#x0;"];
    for attributes in 1..=4 {
        let mut random = Random::new(SEED + attributes as u64);
        for keys in [3, 400] {
            let shape = Shape::new(&[5, 4, 3, 4][..attributes], 2);
            let store = random_store(&mut random, shape, PAGES, keys);
            let picture = asked_picture(&store, &names[..attributes], &["0=0..3"]);
            compare(&picture);
            let svg = draw(&picture);
            assert!(svg.contains("a&lt;b&gt;&amp;\"c' 0..3: reads ") && !svg.contains("<script"));
        }
    }
}

/// A store in several forms: with nothing asked, and under the longest names with asks that read few pages and all.
fn compare_forms(store: &Owned, few: &[&str]) {
    compare(&Picture::of(store));
    let attributes = store.shape().attributes as usize;
    let names = ["a", "b", "c", "d"].map(|letter| "&".repeat(23) + letter);
    let names: Vec<&str> = names[..attributes].iter().map(String::as_str).collect();
    compare(&asked_picture(store, &names, few));
    compare(&asked_picture(store, &names, &[]));
}

/// The largest pictures: most leaves, records and full leaves, most squares, most titles, most cells.
#[test]
fn below_300_000_bytes() {
    let mut random = Random::new(SEED + 5);
    let few = ["0=3", "1=2"];
    for (widths, keys) in
        [(&[16; 4][..], 60_000), (&[4, 4, 4, 5], 400_000), (&[6, 6, 6], 60_000), (&[7, 5, 7], 20_000)]
    {
        let store = even_store(&mut random, widths, keys);
        let picture = Picture::of(&store);
        assert!(
            picture.leaves.len() > 1700 && picture.records().count() > 18_000,
            "{}",
            picture.leaves.len()
        );
        compare_forms(&store, &few);
    }
    for widths in [&[16][..], &[16, 16]] {
        compare_forms(&even_store(&mut random, widths, 62_000), &["0=7..300"]);
    }
    // a page of one record for each leaf, half of the leaves empty
    let mut store = owned::fresh(Shape::new(&[16; 4], 1), PAGES).expect("the shape is within its bounds");
    for i in 0..2048u32 {
        let bits = |j: u32| {
            ((i >> j & 1) << 15 | (i >> (j + 4) & 1) << 14 | (i >> (j + 8) & 1 & (7 >> j)) << 13) as i32
        };
        store.insert([bits(0), bits(1), bits(2), bits(3)], 1).expect("there is room");
    }
    compare_forms(&store, &few[..0]);
}

/// As many leaves as are drawn on their own, and as many as there are cells that are drawn, with full pages.
#[test]
fn many_titles() {
    let mut random = Random::new(SEED + 6);
    for widths in [&[12][..], &[8, 8], &[8, 8, 8], &[8, 8, 8, 8]] {
        for most in [EACH, 256] {
            let mut store = even_store(&mut random, widths, 9 * most);
            // up to the last leaf, and then further records as long as no leaf is divided
            for _ in 0..20 * most {
                let mut value = |j: usize| widths.get(j).map_or(0, |&width| random.below(1 << width) as i32);
                let key = [value(0), value(1), value(2), value(3)];
                let inserted = store.insert(key, 1).is_ok();
                if inserted && Picture::of(&store).leaves.len() > most {
                    store.delete(key).expect("the key was inserted");
                }
            }
            let (picture, records) = (Picture::of(&store), Picture::of(&store).records().count());
            let leaves = picture.leaves.len();
            assert!((most - 3..=most).contains(&leaves) && records > 13 * most, "{leaves} leaves, {records}");
            compare_forms(&store, &["0=3"]);
        }
    }
}

/// Pages that deletes left free stand between those in use.
#[test]
fn free_pages() {
    let mut store = even_store(&mut Random::new(SEED + 7), &[8, 8], 20_000);
    for key in (0..256).flat_map(|a| (0..256).map(move |b| [a, b])).filter(|[a, _]| *a < 250) {
        let _ = store.delete(key);
    }
    let picture = Picture::of(&store);
    assert!(picture.pages().len() > 3 * picture.pages_used());
    compare_forms(&store, &["1=9"]);
}

/// A square for each value, darker where there are more records; a leaf that is read lies over the squares of its keys.
#[test]
fn squares() {
    let puts: String = (0..256).map(|i| format!("\nput {} {} 1", i % 16, i / 16)).collect();
    let store = store(0, &format!("shape 2 4 4 1{puts}"));
    let squares = |picture: &Picture, class: &str| {
        let svg = draw(picture);
        strokes(between(&svg, "class=\"squares\">", "</svg>"), class)
    };
    // a run for each row
    assert_eq!(squares(&Picture::of(&store), "plain s6"), 16);
    let asked = asked_picture(&store, &[], &["0=5", "1=2..3"]);
    assert_eq!((squares(&asked, "read s6"), squares(&asked, "pale s6")), (2, 18));
}

/// What is asked has a frame, however few of the values it is, unless it is all.
#[test]
fn asked_frames() {
    let store = even_store(&mut Random::new(SEED + 8), &[16, 16, 4], 300);
    let frames = |asks: &[&str]| -> Vec<String> {
        let svg = draw(&asked_picture(&store, &[], asks));
        let frames = svg.lines().filter(|line| line.ends_with(" class=\"asked\"/>"));
        frames.map(|frame| between(frame, "width=", " class").to_owned()).collect()
    };
    // on the pairs 0 and 1, 0 and 2, 1 and 2
    let [narrow, low] = ["\"1\" height=\"285\"", "\"285\" height=\"1\""].map(str::to_owned);
    assert_eq!(frames(&["0=3000"]), [narrow.clone(), narrow.clone()]);
    assert_eq!(frames(&["1=3000"]), [low, narrow]);
    assert_eq!(frames(&["2=0..7"]), vec!["\"285\" height=\"142.5\""; 2]);
    assert_eq!(frames(&["2=0..15"]), Vec::<String>::new());
}

/// Fails unless a picture in docs is this one, which stands then in the tests' folder.
fn in_docs(name: &str, drawn: &str, docs: &str) {
    let path = format!("{}/{name}", env!("CARGO_TARGET_TMPDIR"));
    std::fs::write(&path, drawn).expect("a folder to write in");
    assert!(drawn == docs, "docs/{name} is not {path}");
}

/// A gateway's records: display code, container slot, and as payload the image release.
#[test]
fn directory_in_docs() {
    let drawn = draw(&picture(include_str!("../gateway.lines")));
    in_docs("directory.svg", &drawn, include_str!("../../docs/directory.svg"));
}

/// 20,000 rows of a gateway, asked for code 30.
#[test]
fn gateway_in_docs() {
    let store = owned::load(&gateway_file()).expect("a saved file");
    let picture = asked_picture(&store, &GATEWAY, &["code=30"]);
    compare(&picture);
    in_docs("gateway.svg", &draw(&picture), include_str!("../../docs/gateway.svg"));
}
