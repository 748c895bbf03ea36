//! Document 01 in plain Rust, for the tests: records in a list that is scanned in full for every answer, the leaves
//! of a set by their definition, stores written from scratch in the layout of "Lent memory", a judge of soundness, and
//! what a call meets of damaged memory. Nothing here is taken from the library.
pub mod console;
pub mod damage;
pub mod file;
pub mod image;
pub mod judge;
pub mod kept;
pub mod leaves;
pub mod lines;
pub mod met;
pub mod model;
pub mod ordered;
pub mod range;
pub mod reading;
pub mod refusal;
pub mod samples;
pub mod shown;
pub mod told;
pub mod unsound;
pub mod value;
