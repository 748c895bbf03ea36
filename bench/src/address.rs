//! The address map.
use crate::inputs::{shown, vectors, SHAPES};
use crate::measure::Table;
use crate::plain;
use crate::step::Step;
use mdeh_tests::host::{self, Shape};
use mdeh_tests::random::Random;

/// How many calls a row has.
const CALLS: usize = 20_000;

/// Index vectors of all the shape's bits.
pub fn rows(table: &mut Table, random: &mut Random) {
    for widths in SHAPES {
        let shape = Shape::new(widths, 1);
        let indices = vectors(random, widths, CALLS);
        table.pair(
            Step::call("address of an index vector", shown(widths)),
            indices,
            (),
            move |index, _| host::address(shape, index.map(u64::from)).unwrap(),
            move |index, _| plain::address(shape, index.map(u64::from)).unwrap(),
        );
    }
}
