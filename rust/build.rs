//! Links the static library of inner steps; the store's comes with `mdeh`.
#[path = "../embed/rust/link.rs"]
mod link;

fn main() {
    link::library("..", "probe");
}
