//! What the tests compare: the functions of the static libraries, and references built from document 01.
pub mod cells;
pub mod compare;
pub mod followed;
pub mod lent;
pub mod pages;
pub mod plain;
pub mod probe;
pub mod random;
pub mod reference;
pub mod samples;
pub mod shapes;
pub mod twins;

/// The calls on lent slices.
pub use mdeh::raw as host;
