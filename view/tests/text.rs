//! The text.
mod common;

use common::{asked_picture, picture, random_picture, signed_picture, store, STORES};
use mdeh_tests::random::Random;
use mdeh_view::text::draw;

const SEED: u64 = 0x7669_6577_2d74_6578;

#[test]
fn printed_run() {
    let expected = "\
shape      2 attributes of width 2, 2, pages of 2 records
directory  T 3 of 4, 8 cells, 4 leaves
pages      3 of 1,260 in use, 66 % filled, 4 records

depth                      0    1    2    3
leaves                     0    1    1    2
halved by attribute.bit  0.0  1.0  0.1

Cells by address
address  split bits  index  leaf  page
      0  000         (0,0)  0     page 0
      1  100         (1,0)  100   page 1
      2  010         (0,1)  0     page 0
      3  110         (1,1)  11    no page
      4  001         (2,0)  0     page 0
      5  011         (2,1)  0     page 0
      6  101         (3,0)  101   page 2
      7  111         (3,1)  11    no page

Refusal 6 never comes: a region of 4 split bits has no more keys than a page takes

Leaves by depth, in split order: string, page, its records, values
Depth 1: 1 leaf, 4 cells
  0  page 0  #. 1   attribute 0 0..1, attribute 1 0..3
Depth 2: 1 leaf, 2 cells
  11  no page  .. 0   attribute 0 2..3, attribute 1 2..3
Depth 3: 2 leaves, 1 cell each
  100  page 1  ## 2   attribute 0 2, attribute 1 0..1
  101  page 2  #. 1   attribute 0 3, attribute 1 0..1
";
    assert_eq!(draw(&picture(include_str!("../../crates/stock/stdin"))), expected);
}

#[test]
fn store_without_records() {
    let expected = "\
shape      1 attribute of width 16, pages of 1 record
directory  T 0 of 12, 1 cell, 1 leaf
pages      0 of 2,340 in use, 0 records

depth                      0
leaves                     1
halved by attribute.bit

Cells by address
address  split bits  index  leaf  page
      0  -           (0)    -     no page

Refusal 6 comes in no region of 12 split bits before it has 1 record

Leaves by depth, in split order: string, page, its records, values
Depth 0: 1 leaf, 1 cell
  -  no page  . 0   attribute 0 0..65535
";
    assert_eq!(draw(&picture("shape 1 16 1")), expected);
}

/// Split bits are those of encodings: -512 has 0000000000, -1 has 0111111111 and 0 has 1000000000.
#[test]
fn signed_attributes() {
    let lines = "shape 2 10 2 1\nput -512 0 1\nput -1 3 2\nput 0 3 3";
    let expected = "\
shape      2 attributes of width 10 (signed), 2, pages of 1 record
directory  T 2 of 12, 4 cells, 3 leaves
pages      3 of 2,340 in use, 100 % filled, 3 records

depth                      0    1    2
leaves                     0    1    2
halved by attribute.bit  0.0  1.0

Cells by address
address  split bits  index  leaf  page
      0  00          (0,0)  00    page 0
      1  10          (1,0)  1     page 2
      2  01          (0,1)  01    page 1
      3  11          (1,1)  1     page 2

Refusal 6 never comes: a region of 12 split bits has no more keys than a page takes

Leaves by depth, in split order: string, page, its records, values
Depth 1: 1 leaf, 2 cells
  1  page 2  # 1   attribute 0 0..511, attribute 1 0..3
Depth 2: 2 leaves, 1 cell each
  00  page 0  # 1   attribute 0 -512..-1, attribute 1 0..1
  01  page 1  # 1   attribute 0 -512..-1, attribute 1 2..3
";
    assert_eq!(draw(&signed_picture(0b0001, lines)), expected);
    let shape = |signs| draw(&signed_picture(signs, "shape 2 10 2 1")).lines().next().map(str::to_owned);
    let shown = |text: &str| Some(format!("shape      2 attributes of width {text}, pages of 1 record"));
    assert_eq!(shape(0b1100), shown("10, 2"));
    assert_eq!(shape(0b0110), shown("10, 2 (signed)"));
    assert_eq!(shape(0b0011), shown("10 (signed), 2 (signed)"));
}

#[test]
fn grid_of_a_large_directory() {
    let text = draw(&picture("shape 1 7 1\nput 0 1\nput 1 2\nput 64 3"));
    let expected = "
Cells by address, 64 in a row: the depth of the cell's leaf, . without a page
      0  71.1.1.1 .1.1.1.1 .1.1.1.1 .1.1.1.1 .1.1.1.1 .1.1.1.1 .1.1.1.1 .1.1.1.1
     64  71.1.1.1 .1.1.1.1 .1.1.1.1 .1.1.1.1 .1.1.1.1 .1.1.1.1 .1.1.1.1 .1.1.1.1

";
    assert!(text.contains(expected), "{text}");
}

/// Releases from 398 on; codes 100 and 101 of release 401 differ in their 13th split bit.
#[test]
fn leaves_that_are_read() {
    let lines = "shape 2 7 7 2\nput 30 7 1\nput 30 70 2\nput 100 3 3\nput 100 90 4\nput 101 3 5";
    let asks = ["code=30..31", "release=405..467"];
    let expected = "\
shape      2 attributes (code, release) of width 7, 7, pages of 2 records
directory  T 2 of 12, 4 cells, 3 leaves
pages      3 of 1,260 in use, 83 % filled, 5 records
asked      code 30..31, release 405..467: reads 1 of 3 pages, 1 record matches

depth                      0    1    2
leaves                     0    1    2
halved by attribute.bit  0.0  1.0

Cells by address
address  split bits  index  leaf  page
      0  00          (0,0)  0     page 0  > read
      1  10          (1,0)  10    page 1
      2  01          (0,1)  0     page 0  > read
      3  11          (1,1)  11    page 2

Refusal 6 comes next for a further key in 1 region of 12 split bits that is full
  101000001001: in page 1 of leaf 10, code 100..101, release 400..401

Leaves by depth, in split order: string, page, its records, values; > is read
Depth 1: 1 leaf, 2 cells
> 0  page 0  ## 2   code 0..63, release 398..525
Depth 2: 2 leaves, 1 cell each
  10  page 1  ## 2   code 64..127, release 398..461
  11  page 2  #. 1   code 64..127, release 462..525
";
    let picture = asked_picture(&store(0, lines), &["code", "release:from=398"], &asks);
    assert_eq!(draw(&picture), expected);
}

/// The cells of a deep directory are counted, not drawn.
#[test]
fn deep_directories() {
    let text = draw(&picture("shape 1 9 1\nput 0 1\nput 1 2"));
    assert!(
        text.contains("\n\nThe 512 cells are not drawn one by one: so they are up to T 8.\n\n"),
        "{text}"
    );
    assert!(!text.contains("Cells by address"));
    let text = draw(&asked_picture(&store(0, "shape 1 8 1\nput 0 1\nput 1 2"), &[], &["0=0"]));
    let legend = "the depth of the cell's leaf, . without a page, - not read";
    for line in
        [legend, "\n      0  8....... ........ ", "\n     64  ........ ", "\n    128  -....... ........ "]
    {
        assert!(text.contains(line), "{text}");
    }
}

/// Two keys in each of 12 regions of 512 values of attribute 0 and one of attribute 1.
#[test]
fn fullest_regions() {
    let puts: String = (0..24).map(|i| format!("\nput {} 3 1", i / 2 * 512 + i % 2)).collect();
    let text = draw(&picture(&format!("shape 2 16 5 2{puts}")));
    let full =
        "\nRefusal 6 comes next for a further key in 12 regions of 12 split bits that are full\n  0000000";
    let last = ", attribute 0 4608..5119, attribute 1 3\n  and 2 more\n\nLeaves ";
    assert!(text.contains(full) && text.contains(last), "{text}");
    let text = draw(&picture("shape 2 16 5 4\nput 0 0 1\nput 511 0 1\nput 513 0 1\nput 512 1 1"));
    let near = "\nRefusal 6 comes first in 1 region of 12 split bits that has 2 of 4 records: 2 more fit\n  \
        000000000000: in page 0 of leaf -, attribute 0 0..511, attribute 1 0\n\nLeaves ";
    assert!(text.contains(near), "{text}");
}

#[test]
fn columns() {
    let mut random = Random::new(SEED);
    for store in STORES {
        let text = draw(&random_picture(&mut random, store));
        let values = |line: &&str| line.contains(" attribute 0 ");
        let (told, other): (Vec<&str>, Vec<&str>) = text.lines().partition(values);
        other.iter().for_each(|line| assert!(line.len() <= 100, "{line}"));
        // as long as four attributes of 16 bits are
        told.iter().for_each(|line| assert!(line.len() <= 160, "{line}"));
    }
}
