//! The table of single inserts and of the bytes that a record takes.
use crate::database;
use crate::numbers::shown;
use crate::records::{Forms, PAGE};
use crate::step::SQLITE;
use crate::tables::{print_head, print_row};
use crate::tail::{tails, TIMES};
use mdeh_tests::random::Random;

/// Prints the times of inserts of the first sample, and the bytes of both.
pub fn print(random: &mut Random, inserted: Forms, other: Forms) {
    println!("\n## Single inserts, and bytes a record");
    let bytes = |forms: Forms| format!("bytes, {}", forms.sample.shown());
    let mut head = vec!["form".to_string()];
    head.extend(TIMES.map(String::from));
    head.extend([bytes(inserted), bytes(other)]);
    print_head(&head);
    for tail in tails(random, inserted) {
        let mut cells = vec![tail.name.to_string()];
        cells.extend(tail.times.map(shown));
        cells.extend([inserted, other].map(|forms| shown(bytes_each(forms, tail.name))));
        print_row(&cells);
    }
}

/// The bytes that a form takes for each record: of a store its state and the words and pages in use, of SQLite all
/// pages of the database.
fn bytes_each(forms: Forms, name: &str) -> f64 {
    let (pages, depth) = forms.plain.extent();
    let store = 4 * (forms.lent.state.len() + (1 << depth)) + PAGE * pages;
    let bytes = match forms.database {
        Some(database) if name == SQLITE => database::bytes(database),
        _ => store,
    };
    bytes as f64 / forms.sample.records as f64
}
