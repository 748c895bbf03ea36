//! The program: its arguments, its standard output and error, its status.
mod common;

use mdeh_view::picture::Picture;
use mdeh_view::{owned, svg, text};
use std::io::Write;
use std::process::{Command, Stdio};

/// What the program prints and tells for these arguments and this input, and its status.
fn run(arguments: &[&str], input: &str) -> (String, String, Option<i32>) {
    let mut child = Command::new(env!("CARGO_BIN_EXE_view"))
        .args(arguments)
        .stdin(Stdio::piped())
        .stdout(Stdio::piped())
        .stderr(Stdio::piped())
        .spawn()
        .expect("it starts");
    // a program that reads no input may have ended
    let _ = child.stdin.take().expect("a pipe").write_all(input.as_bytes());
    let output = child.wait_with_output().expect("it ends");
    let text = |bytes: Vec<u8>| String::from_utf8(bytes).expect("it prints text");
    (text(output.stdout), text(output.stderr), output.status.code())
}

#[test]
fn lines_passed_over() {
    let input = "put 1 1\nshape 1 2 1\nput 1 1\nput 1 2\nshape 1 17 1\ncut 3\nput 4 0\nlist *\nlist 4\n\
        put 1 0\n\nput 1";
    let (text, told, status) = run(&[], input);
    assert!(text.starts_with("shape      1 attribute of width 2, pages of 1 record\n"));
    let expected = "\
line 1: bad line
line 4: no 4 (the key is stored already)
line 5: no 14 (the width of attribute 0 is outside 1 to 16)
line 6: no 5 (the key is not stored)
line 7: no 3 (a value, index or address is outside its bounds, or an unused value is not 0)
line 9: no 3 (a value, index or address is outside its bounds, or an unused value is not 0)
line 10: no 11 (the payload is 0)
line 11: bad line
line 12: bad line
";
    assert_eq!((told.as_str(), status), (expected, Some(0)));
}

#[test]
fn arguments() {
    let (text, told, status) = run(&["--svg"], "shape 2 2 2 2\n");
    assert!(text.starts_with("<svg ") && text.ends_with("</svg>\n") && told.is_empty());
    assert_eq!(status, Some(0));
    let (help, told, status) = run(&["--help"], "");
    assert!(
        help.starts_with("view [--svg] [--signed ATTRIBUTES] [--attribute SPEC]... [--ask ASK]... < LINES\n")
    );
    assert!(help.lines().all(|line| line.len() <= 80), "{help}");
    assert_eq!((told.as_str(), status), ("", Some(0)));
}

/// Arguments of another form are told by the help.
#[test]
fn refused_arguments() {
    let (help, _, _) = run(&["--help"], "");
    let long = "a".repeat(25);
    let refused: [&[&str]; 35] = [
        &["--png"],
        &["--svg", "--svg"],
        &["--svg", "--help"],
        &["--signed"],
        &["--signed", ""],
        &["--signed", "4"],
        &["--signed", "00"],
        &["--signed", "0,"],
        &["--signed", "0 2"],
        &["--signed", "--svg"],
        &["--signed", "0", "--signed", "1"],
        &["0"],
        &["--file"],
        &["--file", "a", "--file", "b"],
        &["--file", "a", "--signed", "0"],
        &["--attribute"],
        &["--attribute", ""],
        &["--attribute", &long],
        &["--attribute", ":from=1"],
        &["--attribute", "a=b"],
        &["--attribute", "a\nb"],
        &["--attribute", "a:"],
        &["--attribute", "a:7"],
        &["--attribute", "a:to=7"],
        &["--attribute", "a:from="],
        &["--attribute", "a:from=+1"],
        &["--attribute", "a:from=1,to="],
        &["--attribute", "a:from=2,to=1"],
        &["--attribute", "a:from=1,to=2147483648"],
        &["--attribute", "a", "--attribute", "a"],
        &["--ask"],
        &["--ask", "a"],
        &["--ask", "=1"],
        &["--ask", "a=1.."],
        &["--ask", "a=1...2"],
    ];
    for arguments in refused {
        assert_eq!(
            run(arguments, "shape 2 2 2 2\n"),
            (String::new(), help.clone(), Some(2)),
            "{arguments:?}"
        );
    }
}

#[test]
fn signed_attributes() {
    let input = "shape 3 10 2 1 1\nput -512 3 -1 1\nput -1 -1 0 2\nput -1 1 0 -2\n";
    let told =
        "line 3: no 3 (a value, index or address is outside its bounds, or an unused value is not 0)\n\
        line 4: bad line\n";
    for arguments in [&["--signed", "0,2"][..], &["--signed", "2,0,3,2"]] {
        let (text, found, status) = run(arguments, input);
        let shape = "shape      3 attributes of width 10 (signed), 2, 1 (signed), pages of 1 record\n";
        assert!(text.starts_with(shape), "{text}");
        assert_eq!((found.as_str(), status), (told, Some(0)));
    }
    for arguments in [["--svg", "--signed", "0,2"], ["--signed", "0,2", "--svg"]] {
        let (text, found, status) = run(&arguments, input);
        assert!(text.starts_with("<svg ") && text.contains("width 10 (signed), 2, 1 (signed), pages"));
        assert_eq!((found.as_str(), status), (told, Some(0)));
    }
}

#[test]
fn no_store() {
    let told = "line 1: bad line\nview: no accepted `shape` line, so there is no store to draw\n";
    assert_eq!(run(&[], "list *\n"), (String::new(), told.to_owned(), Some(1)));
}

/// A folder of the tests' own.
const FOLDER: &str = env!("CARGO_TARGET_TMPDIR");

#[test]
fn saved_file() {
    let store = common::store(0b01, "shape 2 10 4 1\nput -512 0 1\nput 511 15 2\nput 0 8 3\nput -1 8 4");
    let file = common::saved(&store);
    let path = format!("{FOLDER}/program.mdeh");
    std::fs::write(&path, &file).expect("a folder to write in");
    // as in memory of 4,096 words and 4,096 pages
    let loaded = Picture::of(&owned::load(&file).expect("a saved file"));
    assert_eq!((loaded.page_limit, loaded.depth_limit), (4096, 12));
    let told = String::new();
    assert_eq!(run(&["--file", &path], "put"), (text::draw(&loaded), told.clone(), Some(0)));
    assert_eq!(run(&["--svg", "--file", &path], ""), (svg::draw(&loaded), told.clone(), Some(0)));
    let arguments =
        ["--file", &path, "--attribute", "offset", "--attribute", "drive:from=1", "--ask", "drive=9"];
    let asked = common::asked_picture(&store, &["offset", "drive:from=1"], &["drive=9"]);
    let (text, told, status) = run(&arguments, "");
    assert_eq!((told.as_str(), status), ("", Some(0)));
    let line = format!("asked      {}\n", mdeh_view::figures::asked(&asked).expect("something is asked"));
    assert!(text.contains(&line) && line.contains("drive 9: reads 3 of 4 pages, 2 records match"), "{text}");
}

#[test]
fn refused_files() {
    let mut file = common::saved(&common::store(0, "shape 2 2 2 2\nput 2 1 13\nput 3 1 12"));
    let path = format!("{FOLDER}/refused.mdeh");
    let told = |file: &[u8]| {
        std::fs::write(&path, file).expect("a folder to write in");
        let (drawn, told, status) = run(&["--svg", "--file", &path], "shape 2 2 2 2\n");
        assert_eq!((drawn.as_str(), status), ("", Some(1)));
        told
    };
    assert_eq!(told(&file[1..]), format!("view: {path}: no 12 (the bytes are no whole file)\n"));
    assert!(told(&[]).contains(": no 12 ("));
    file[26] = 0;
    assert_eq!(told(&file), format!("view: {path}: no 14 (the width of attribute 1 is outside 1 to 16)\n"));
    file[26] = 2;
    file[0] = 3;
    assert!(told(&file).contains(": no 13 ("));
    let (drawn, told, status) = run(&["--file", &format!("{path}.none")], "");
    assert_eq!((drawn.as_str(), status), ("", Some(1)));
    assert!(told.starts_with(&format!("view: {path}.none: ")), "{told}");
}

/// Names and values that do not fit the store are told in words.
#[test]
fn refused_names_and_values() {
    let input = "shape 2 4 3 2\nput 0 0 1\nput 15 7 2\nput 3 1 3\n";
    let refused: [(&[&str], &str); 9] = [
        (&["--attribute", "a"], "the store has 2 attributes, not 1"),
        (
            &["--attribute", "a", "--attribute", "b:from=1,to=9"],
            "b: 9 values do not fit width 3, which has 8",
        ),
        (
            &["--attribute", "a:from=-5,to=5", "--attribute", "b"],
            "a: the store holds 3, which no value from -5 to 5 has",
        ),
        (&["--ask", "code=1"], "the store has no attribute code"),
        (&["--ask", "2=1"], "the store has no attribute 2"),
        (&["--ask", "0=1", "--ask", "attribute 0=2"], "attribute 0 is asked twice"),
        (&["--ask", "1=8"], "attribute 1 8 is none of 0..7"),
        (&["--attribute", "a:from=5", "--attribute", "b", "--ask", "a=4..7"], "a 4 is none of 5..20"),
        (&["--ask", "1=5..4"], "no 10 (an interval's low end is above its high end)"),
    ];
    for (arguments, reason) in refused {
        let expected = (String::new(), format!("view: {reason}\n"), Some(1));
        assert_eq!(run(arguments, input), expected, "{arguments:?}");
    }
}
