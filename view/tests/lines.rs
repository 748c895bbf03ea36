//! The reader of lines beside the plain reading of document 01.
use mdeh_tests::plain::console::Console;
use mdeh_tests::plain::lines::{random_line, EDGES};
use mdeh_tests::random::Random;
use mdeh_view::session::{Fault, Session};

const SEED: u64 = 0x7669_6577_2d6c_696e;

/// Takes lines in turn; each is passed over for the reason that the plain store replies.
fn compare<'a>(lines: impl IntoIterator<Item = &'a [u8]>) {
    let (mut session, mut console) = (Session::default(), Console::default());
    for line in lines {
        let reply = match session.take(line) {
            Ok(()) => None,
            Err(Fault::Bad) => Some("bad line\n".to_owned()),
            Err(Fault::Refused(refusal)) => Some(format!("no {}\n", refusal.number())),
        };
        let expected = console.reply(line);
        let refused = expected.starts_with("no ") || expected.starts_with("bad");
        assert_eq!(reply, refused.then_some(expected), "{}", String::from_utf8_lossy(line));
    }
}

#[test]
fn long_runs() {
    let mut random = Random::new(SEED);
    for (widths, capacity) in [(&[2, 2][..], 2), (&[4, 5, 3], 4), (&[16; 4], 16), (&[6], 1)] {
        let list: Vec<String> = widths.iter().map(u64::to_string).collect();
        let shape = format!("shape {} {} {capacity}", widths.len(), list.join(" "));
        let lines: Vec<String> = (0..2000).map(|_| random_line(&mut random, widths)).collect();
        compare(std::iter::once(&shape).chain(&lines).map(String::as_bytes));
    }
}

#[test]
fn edges_of_the_line_form() {
    compare(EDGES);
}

/// Lines with a minus sign, in turn: whether each is accepted, bad (0) or refused with a number.
fn compare_signed(signs: u32, lines: &[(&str, Result<(), u32>)]) {
    let mut session = Session::signed(signs);
    for &(line, expected) in lines {
        let taken = session.take(line.as_bytes()).map_err(|fault| match fault {
            Fault::Bad => 0,
            Fault::Refused(refusal) => refusal.number(),
        });
        assert_eq!(taken, expected, "marks {signs}: {line}");
    }
}

#[test]
fn values_with_a_minus_sign() {
    compare_signed(
        0b1010,
        &[
            ("put -1 1", Err(0)),
            ("shape 2 4 10 -2", Err(0)),
            ("shape 2 4 10 2", Ok(())),
            ("put 3 -512 1", Ok(())),
            ("put 3 -513 1", Err(3)),
            ("put 3 511 1", Ok(())),
            ("put 3 512 1", Err(3)),
            ("put -1 0 1", Err(3)),
            ("put 3 -0512 1", Err(4)),
            ("put 0 -0 1", Ok(())),
            ("put 0 0 1", Err(4)),
            ("put 0 1 -1", Err(0)),
            ("put 0 - 1", Err(0)),
            ("put 0 --1 1", Err(0)),
            ("put 0 -+1 1", Err(0)),
            ("put 0 -1.0 1", Err(0)),
            ("put 0 -4294967295 1", Err(3)),
            ("put 0 -4294967296 1", Err(0)),
            // the number that two's complement of 32 bits has for -1
            ("put 0 4294967295 1", Err(3)),
            ("put 0 4294967296 1", Err(0)),
            ("list * -512", Ok(())),
            ("list * -*", Err(0)),
            ("list -1 -513", Err(3)),
            ("cut 3 -1", Err(5)),
            ("cut 3 -512", Ok(())),
            ("cut 3 -512", Err(5)),
            // without an attribute that is marked
            ("shape 1 4 2", Ok(())),
            ("put -1 1", Err(3)),
            ("put 15 1", Ok(())),
        ],
    );
    // `stock` takes no minus sign
    let lines = ["put 0 1", "put 15 1", "put 16 1"].map(str::to_owned);
    let minus = ["put -1 1", "cut -1", "list -1", "put -0 1"].map(str::to_owned);
    let shape = ["shape 1 4 2".to_owned()];
    compare(shape.iter().chain(&lines).chain(&minus).map(String::as_bytes));
    compare_signed(0, &[("shape 1 4 2", Ok(())), ("put -0 1", Err(0)), ("list -1", Err(0))]);
}
