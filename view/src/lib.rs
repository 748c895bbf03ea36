//! Draws a store, that of lines of `stock` or of a saved file: its cells by address, its keys by pairs of attributes,
//! its leaves by depth, its pages with their fill, and the pages that a query reads.
pub mod ask;
pub mod attribute;
pub mod figures;
pub mod fullest;
pub mod lines;
pub mod options;
pub mod owned;
pub mod picture;
pub mod session;
pub mod svg;
pub mod text;
