//! Comparisons that are counted, so that a test which compares nothing fails.
use std::fmt::{Arguments, Debug};

#[derive(Default)]
pub struct Comparisons {
    made: u64,
}

impl Comparisons {
    /// Panics, with what it is about, unless the two are equal.
    #[track_caller]
    pub fn same<T: PartialEq + Debug>(&mut self, found: T, expected: T, about: Arguments) {
        self.made += 1;
        if found != expected {
            panic!("{about}: found {found:?}, expected {expected:?}");
        }
    }

    /// Prints the number of comparisons, and panics unless it is the expected one.
    #[track_caller]
    pub fn end(self, expected: u64) {
        println!("{} comparisons", self.made);
        assert_eq!(self.made, expected, "number of comparisons");
    }
}
