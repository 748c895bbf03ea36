//! Times the store's calls and steps beside plain safe Rust and others, and prints tables. Words given as
//! arguments choose the rows whose name or table has one of them: `cell region`, `Growth`; without any, single inserts
//! are timed too. With `--count` each form runs once, for a tool that counts instructions.
mod address;
mod builds;
mod calls;
mod changes;
mod clock;
mod database;
mod directory;
mod dynamic;
mod files;
mod inputs;
mod lists;
mod lookups;
mod measure;
mod numbers;
mod packed;
mod pages;
mod plain;
mod queries;
mod ranges;
mod records;
mod scans;
mod single;
mod sqlite;
mod step;
mod store;
mod tables;
mod tail;

use builds::Build;
use mdeh_tests::random::Random;
use records::Sample;
use sqlite::Database;
use tables::Layout;

/// The records of the table of calls, which the tail of insert is measured on too.
const CALLS: usize = 20_000;
const CALLS_WIDTHS: [u32; 3] = [8, 8, 10];

/// Those of the table of growth. At most 16 keys of 16 bits share their first 12, and 16 records fit a page: no insert
/// is refused.
const GROWTH: [usize; 5] = [1_000, 5_000, 10_000, 20_000, 40_000];
const GROWTH_WIDTHS: [u32; 3] = [5, 5, 6];

/// A gateway's: codes 0 to 99, slots 0 to 23, releases 398 to 479 less 398.
const GATEWAY: Sample =
    Sample { records: 10_000, called: "of a gateway", widths: [7, 5, 7], below: [100, 24, 82] };

fn main() {
    let (options, chosen): (Vec<String>, Vec<String>) =
        std::env::args().skip(1).partition(|word| word == "--count");
    let (counting, choosing) = (!options.is_empty(), !chosen.is_empty());
    let mut table = measure::Table::new(chosen);
    let mut random = Random::new(0x6d64_6568_2d30_3033);
    match Database::open() {
        Some(database) => println!("SQLite {}", database.version()),
        None => println!("SQLite is skipped: libsqlite3.so.0 is not installed"),
    }
    let builds: &'static [Build] = Build::all().leak();
    table.section("Calls", Layout::Forms);
    let calls = calls::rows(&mut table, &mut random, builds, Sample::random(CALLS, CALLS_WIDTHS));
    if let Some(forms) = calls {
        ranges::other_rows(&mut table, &mut random, forms);
    }
    if let (Some(forms), false) = (calls, counting) {
        lookups::repeated_row(&mut table, &mut random, forms);
        queries::repeated_row(&mut table, &mut random, forms);
    }
    table.section("Growth", Layout::Inputs);
    for records in GROWTH {
        calls::rows(&mut table, &mut random, builds, Sample::random(records, GROWTH_WIDTHS));
    }
    let gateway = calls::rows(&mut table, &mut random, builds, GATEWAY);
    table.section("Steps", Layout::Inputs);
    address::rows(&mut table, &mut random);
    directory::rows(&mut table, &mut random);
    pages::rows(&mut table, &mut random);
    if counting {
        table.count();
        return;
    }
    table.measure();
    if let (Some(calls), Some(gateway), false) = (calls, gateway, choosing) {
        single::print(&mut random, calls, gateway);
    }
}
