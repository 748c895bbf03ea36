//! The program `stock`, which `rt ci`, and `rt run` in its folder, write to `crates/stock/out`: long runs with every answer
//! compared with that of the plain store, and the edges of the line form.
use mdeh_tests::plain::console::Console;
use mdeh_tests::plain::lines::{random_line, EDGES};
use mdeh_tests::random::Random;
use std::io::{Read, Write};
use std::path::{Path, PathBuf};
use std::process::{Command, Stdio};

const SEED: u64 = 0x6d64_6568_2d30_3131;

/// The program, which has to be there.
fn program() -> PathBuf {
    let root =
        Path::new(env!("CARGO_MANIFEST_DIR")).parent().expect("the package is a folder of the repository");
    let path = root.join("crates/stock/out/stock");
    assert!(path.is_file(), "{} is missing: run `rt run` in crates/stock first", path.display());
    path
}

/// What the program prints for an input that is written to it in pieces of these sizes, over and over.
fn printed(input: &[u8], sizes: &[usize]) -> Vec<u8> {
    let mut child =
        Command::new(program()).stdin(Stdio::piped()).stdout(Stdio::piped()).spawn().expect("it starts");
    let mut stdin = child.stdin.take().expect("a pipe");
    let mut output = Vec::new();
    std::thread::scope(|scope| {
        scope.spawn(move || {
            let mut rest = input;
            for &size in sizes.iter().cycle() {
                if rest.is_empty() {
                    break;
                }
                let (piece, others) = rest.split_at(size.min(rest.len()));
                stdin.write_all(piece).expect("it reads its input to the end");
                rest = others;
            }
        });
        child.stdout.take().expect("a pipe").read_to_end(&mut output).expect("it prints");
    });
    assert!(child.wait().expect("it ends").success());
    output
}

/// The replies of the plain store to each line of an input; a last line that no newline ends is a line.
fn expected(input: &[u8]) -> String {
    let mut console = Console::default();
    let mut lines: Vec<&[u8]> = input.split(|&byte| byte == b'\n').collect();
    if lines.last() == Some(&&b""[..]) {
        lines.pop();
    }
    lines.into_iter().map(|line| console.reply(line)).collect()
}

/// Compares what is printed with the plain store's replies, line by line. Returns it.
fn compare(input: &[u8], sizes: &[usize]) -> String {
    let printed = String::from_utf8(printed(input, sizes)).expect("it is text");
    let expected = expected(input);
    let (mut ours, mut theirs) = (printed.split('\n'), expected.split('\n'));
    for number in 1.. {
        let (a, b) = (ours.next(), theirs.next());
        assert_eq!(a, b, "line {number} of what is printed");
        if a.is_none() {
            break;
        }
    }
    printed
}

#[test]
fn long_runs() {
    let mut random = Random::new(SEED);
    for (widths, capacity, count) in [
        (&[2, 2][..], 2, 2000),
        (&[4, 5, 3], 4, 4000),
        (&[16; 4], 16, 3000),
        (&[6], 1, 2000),
        (&[5, 5], 16, 3000),
    ] {
        let list: Vec<String> = widths.iter().map(u64::to_string).collect();
        let mut input = format!("shape {} {} {capacity}\n", widths.len(), list.join(" "));
        for _ in 0..count {
            input += &random_line(&mut random, widths);
            input.push('\n');
        }
        let text = compare(input.as_bytes(), &[1, 4096, 17, 65536, 3, 100_000]);
        assert!(text.contains("\nno 11\n"), "{widths:?}: no insert was refused for its payload");
    }
}

#[test]
fn edges_of_the_line_form() {
    let mut input = EDGES.join(&b'\n');
    compare(&input, &[7]);
    input.push(b'\n');
    compare(&input, &[1]);
    compare(b"", &[1]);
    compare(b"\n\n", &[1]);
    // lines of a million bytes
    for part in ["shape 1 4 4\nput ", "shape 1 4 4\nput 3 ", "shape", "list * "] {
        for fill in [b'0', b' ', b'7', b'x'] {
            let long = [part.as_bytes(), &vec![fill; 1_000_000], b"1\nlist *\nlist 3"].concat();
            compare(&long, &[65536, 1000]);
        }
    }
}

#[test]
fn more_matches_than_output_records() {
    let mut input = String::from("shape 2 6 6 16\n");
    for i in 0..600 {
        input += &format!("put {} {} {}\n", i % 32, i / 32, i + 1);
    }
    input += "list * *\nlist 3 *\nlist * *\n";
    compare(input.as_bytes(), &[65536]);
}

/// "It lends 4,096 words": keys that share their first 11 split bits stand in leaves of depth 12, which have every word;
/// a key that shares 12 with one of them is refused.
#[test]
fn every_lent_word() {
    for (shape, keys) in [
        ("shape 1 16 1", ["0", "16", "65535", "65519", "8"]),
        ("shape 4 3 3 3 3 1", ["0 0 0 0", "0 0 0 1", "7 7 7 7", "7 7 7 6", "0 0 0 1"]),
        ("shape 2 6 7 1", ["0 0", "0 2", "63 127", "63 125", "0 1"]),
    ] {
        let puts: String = keys.iter().map(|key| format!("put {key} 5\n")).collect();
        let list = vec!["*"; keys[0].split(' ').count()].join(" ");
        let input = format!("{shape}\n{puts}list {list}\n");
        let text = compare(input.as_bytes(), &[65536]);
        let accepted = text.lines().take_while(|&line| line == "ok").count();
        assert_eq!(accepted, 5, "{shape}: {text}");
        assert!(text.ends_with("= 4 4\n"), "{shape}: {text}");
    }
}

/// "32,768 page bytes": 32,768 / (2 + 12b) leaves with records have a page, and no leaf more. For b = 7 all bytes but
/// two are in pages.
#[test]
fn every_lent_page() {
    for capacity in [1, 7, 16] {
        let mut input = format!("shape 1 12 {capacity}\n");
        for key in 0..4096 {
            input += &format!("put {key} {}\n", key + 1);
        }
        input += "list *\n";
        let text = compare(input.as_bytes(), &[65536]);
        assert!(text.contains("\nno 7\n"), "b = {capacity}: no insert was refused for want of a page");
        let reads = text.trim_end().rsplit(' ').next().expect("the list's reads");
        assert_eq!(reads.parse(), Ok(32768 / (2 + 12 * capacity)), "b = {capacity}");
    }
}

/// "256 output records": all of 256 are listed, and 256 of 257.
#[test]
fn every_lent_output_record() {
    let mut input = String::from("shape 1 9 16\n");
    for key in 0..256 {
        input += &format!("put {key} {}\n", key + 1);
    }
    input += "list *\nput 256 257\nlist *\n";
    let text = compare(input.as_bytes(), &[65536]);
    let records = text.lines().filter(|line| line.contains(' ') && !line.starts_with('=')).count();
    assert_eq!(records, 512);
}

// ---- payload 0

/// Lines, and what is printed for each.
fn replies(lines: &[(&str, &str)]) {
    let input: Vec<&str> = lines.iter().map(|&(line, _)| line).collect();
    let text = compare(input.join("\n").as_bytes(), &[65536]);
    for ((line, expected), reply) in lines.iter().zip(text.lines()) {
        assert_eq!(reply, *expected, "{line}");
    }
    assert_eq!(text.lines().count(), lines.len());
}

/// After 3 and before 4, in each form of the number; a line of another form is a bad line.
#[test]
fn a_put_with_payload_0_prints_no_11() {
    replies(&[
        ("put 0 0 0", "bad line"),
        ("shape 2 2 2 2", "ok"),
        ("put 0 0 0", "no 11"),
        ("put 0 0 00", "no 11"),
        ("put 0 0 00000000000000000000000000000000", "no 11"),
        ("put 00 00 0", "no 11"),
        ("list * *", "= 0 0"),
        ("put 0 0 10", "ok"),
        ("put 0 0 0", "no 11"),
        ("put 0 0 11", "no 4"),
        ("put 4 0 0", "no 3"),
        ("put 0 4294967295 0", "no 3"),
        ("put 0 4294967296 0", "bad line"),
        ("put 1 0 4294967296", "bad line"),
        ("put 1 0", "bad line"),
        ("put 1 0 0 0", "bad line"),
        ("put 1 0 0 ", "bad line"),
        ("put 1 0  0", "bad line"),
        ("put 1 0 -0", "bad line"),
        ("put 1 0 +0", "bad line"),
        ("put 1 0 *", "bad line"),
        ("put 1 0 ", "bad line"),
        ("put 1 0 01", "ok"),
        ("put 1 1 4294967295", "ok"),
        ("put 1 2 0", "no 11"),
        ("cut 0 0", "ok"),
        ("put 0 0 0", "no 11"),
        ("cut 0 0", "no 5"),
    ]);
}

/// Before 6, where the directory is as deep as it can be, and before 7, where every page has records.
#[test]
fn payload_0_in_a_full_store_prints_no_11() {
    replies(&[
        ("shape 1 16 1", "ok"),
        ("put 0 1", "ok"),
        ("put 8 1", "no 6"),
        ("put 8 0", "no 11"),
        ("put 0 0", "no 11"),
        ("put 65536 0", "no 3"),
    ]);
    // one record a page
    let puts: Vec<String> = (0..2340).map(|key| format!("put {key} 1")).collect();
    let mut lines = vec![("shape 1 12 1", "ok")];
    lines.extend(puts.iter().map(|put| (&put[..], "ok")));
    lines.extend([
        ("put 2340 1", "no 7"),
        ("put 2340 0", "no 11"),
        ("put 5 0", "no 11"),
        ("put 4096 0", "no 3"),
    ]);
    replies(&lines);
}

// ---- what is amiss in a shape

/// "Number 1 remains for the attribute count", whichever numbers follow; then 14, whose attribute is not printed, and
/// 15. A refused shape leaves the store of the one before.
#[test]
fn a_shape_line_prints_what_is_amiss() {
    replies(&[
        ("shape 2 0 3 2", "no 14"),
        ("list * *", "bad line"),
        ("shape 2 3 3 17", "no 15"),
        ("shape 5 3 3 3 3 3 2", "no 1"),
        ("shape 2 2 2 2", "ok"),
        ("put 2 1 13", "ok"),
        ("shape 2 3 0 2", "no 14"),
        ("shape 2 17 17 0", "no 14"),
        ("shape 2 3 3 0", "no 15"),
        ("shape 2 16 16 4294967295", "no 15"),
        ("shape 4 16 16 16 17 17", "no 14"),
        ("shape 1 4294967295 0", "no 14"),
        ("shape 1 4294967296 0", "bad line"),
        ("shape 257 2 2", "no 1"),
        ("shape 5", "no 1"),
        ("shape 0 0 0", "no 1"),
        ("shape 0 *", "bad line"),
        ("shape 2 0 3", "bad line"),
        ("shape 2 0 3 2 2", "bad line"),
        ("shape 2 3 3 17 ", "bad line"),
        ("list * 2", "= 0 1"),
        ("cut 2 1", "ok"),
        ("shape 1 16 16", "ok"),
        ("put 65535 1", "ok"),
    ]);
}

/// All combinations of widths and capacities, in bounds and out, for each count.
#[test]
fn every_combination_in_a_shape_line() {
    let (mut input, mut expected) = (String::new(), String::new());
    for d in 0..=5 {
        for turn in 0..4usize.pow(d + 1) {
            let number = |place: u32| [0, 1, 16, 17][turn / 4usize.pow(place) % 4];
            let numbers: Vec<u32> = (0..=d).map(number).collect();
            let outside = |number: &u32| [0, 17].contains(number);
            let (capacity, widths) = numbers.split_last().expect("there is a capacity");
            let list: Vec<String> = numbers.iter().map(u32::to_string).collect();
            input += &format!("shape {d} {}\n", list.join(" "));
            expected += match widths {
                _ if d == 0 || d == 5 => "no 1\n",
                widths if widths.iter().any(outside) => "no 14\n",
                _ if outside(capacity) => "no 15\n",
                _ => "ok\n",
            };
        }
    }
    assert_eq!(compare(input.as_bytes(), &[65536]), expected);
}

// ---- minus signs

/// "`stock` marks none and takes no minus sign": a number of 2^31 or more is no number below 0 either.
#[test]
fn a_minus_sign_is_a_bad_line() {
    replies(&[
        ("shape 2 2 2 2", "ok"),
        ("shape 2 -2 2 2", "bad line"),
        ("shape -2 2 2 2", "bad line"),
        ("put -1 0 5", "bad line"),
        ("put 0 -0 5", "bad line"),
        ("cut -1 0", "bad line"),
        ("list -1 *", "bad line"),
        ("put 3 3 5", "ok"),
        ("put 4294967295 0 5", "no 3"),
        ("put 4294967294 0 5", "no 3"),
        ("put 2147483648 0 5", "no 3"),
        ("cut 4294967295 3", "no 3"),
        ("list 4294967295 *", "no 3"),
        ("cut 3 3", "ok"),
        ("list * *", "= 0 0"),
    ]);
}
