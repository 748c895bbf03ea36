//! Names and values of attributes.
use mdeh::Shape;
use mdeh_view::attribute::{Attribute, Spec};

/// The attribute of a text, for the only attribute of a shape.
fn attribute(text: &str, shape: Shape) -> Attribute {
    Spec::parse(text).expect("a name").attribute(shape, 0).expect("the values fit")
}

/// Rank r has the encoding floor(r * 2^w / count), and the encoding e back the rank ceil(e * count / 2^w); the values
/// of an interval are those whose encodings are in it.
#[test]
fn spread_values() {
    for width in 1..=6u32 {
        let room = 1i64 << width;
        for (count, from) in (1..=room).zip([-70, 0, 398].into_iter().cycle()) {
            let text = format!("a:from={from},to={}", from + count - 1);
            let attribute = attribute(&text, Shape::new(&[width], 1));
            let encodings: Vec<u32> = (0..count).map(|rank| (rank * room / count) as u32).collect();
            for (rank, &encoding) in (0..).zip(&encodings) {
                assert_eq!(attribute.encoding(from + rank), Some(encoding), "{text}");
                assert_eq!((i64::from(encoding) * count + room - 1) / room, rank);
            }
            assert_eq!([from - 1, from + count].map(|value| attribute.encoding(value)), [None, None]);
            for (low, high) in
                (0..room as u32).flat_map(|low| (low..room as u32).map(move |high| (low, high)))
            {
                let inside = |encoding: &u32| (low..=high).contains(encoding);
                let first = encodings.iter().position(inside).map(|rank| from + rank as i64);
                let last = encodings.iter().rposition(inside).map(|rank| from + rank as i64);
                assert_eq!(attribute.values((low, high)), first.zip(last), "{text} {low}..{high}");
            }
        }
    }
}

#[test]
fn values_in_words() {
    let shape = Shape::new(&[7], 16);
    let told = |text: &str, encodings| attribute(text, shape).told(encodings);
    assert_eq!(told("code", (12, 15)), "code 12..15");
    assert_eq!(told("code", (30, 30)), "code 30");
    assert_eq!(told("release:from=398", (0, 15)), "release 398..413");
    assert_eq!(told("release:from=-5", (0, 127)), "release -5..122");
    // of 100 codes in 128 encodings, code 25 has 32, code 26 has 33, and none has 31 and 36
    assert_eq!(told("code:from=0,to=99", (32, 63)), "code 25..49");
    assert_eq!(told("code:from=0,to=99", (36, 36)), "no code");
    assert_eq!(told("code:from=0,to=99", (0, 127)), "code 0..99");
    assert_eq!(Attribute::plain(Shape::new(&[7, 4], 1).signed(1), 1).told((0, 7)), "attribute 1 -8..-1");
    // the store's least value stands for N
    let signed = Spec::parse("a:from=100").expect("a name").attribute(shape.signed(0), 0);
    assert_eq!(signed.expect("it fits").ends(), (100, 227));
}

#[test]
fn texts() {
    let spec = |name: &str, from, to| Some(Spec { name: name.to_owned(), from, to });
    assert_eq!(Spec::parse("code"), spec("code", None, None));
    assert_eq!(Spec::parse("display code:from=-3"), spec("display code", Some(-3), None));
    assert_eq!(Spec::parse("r:from=398,to=479"), spec("r", Some(398), Some(479)));
    assert_eq!(Spec::parse("é<&>\"'"), spec("é<&>\"'", None, None));
    assert_eq!(Spec::parse(&"ü".repeat(24)), spec(&"ü".repeat(24), None, None));
    let bad = [
        "",
        ":",
        "a:",
        "a:b",
        "a:from",
        "a:from=",
        "a:from=x",
        "a:from=1,to",
        "a:from=1,to=2,",
        "a:to=1,from=0",
    ];
    for text in
        bad.into_iter().chain(["a:from=--1", "a:from=1.5", "a:from= 1", "a\u{1b}", "a\u{ffff}", "a=b"])
    {
        assert_eq!(Spec::parse(text), None, "{text:?}");
    }
    assert_eq!(Spec::parse(&"ü".repeat(25)), None);
}
