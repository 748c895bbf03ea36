//! Links the store's static library.
mod link;

fn main() {
    link::library("../..", "mdeh");
}
