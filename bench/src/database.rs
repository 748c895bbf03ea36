//! The records in SQLite: the key primary, and for each attribute an index that begins with it and has the others and
//! the payload, so that every query is answered by one range of one index. Attribute 0's is the table itself.
use crate::packed::{self, Intervals, Record, ATTRIBUTES};
use crate::ranges::Part;
use crate::sqlite::{Database, Statement};

const TABLES: &str =
    "CREATE TABLE r (a0 INT, a1 INT, a2 INT, payload INT, PRIMARY KEY (a0, a1, a2)) WITHOUT ROWID;
    CREATE INDEX r1 ON r (a1, a2, a0, payload); CREATE INDEX r2 ON r (a2, a0, a1, payload)";
pub const LOOKUP: &str = "SELECT payload FROM r WHERE a0 = ? AND a1 = ? AND a2 = ?";
pub const INSERT: &str = "INSERT INTO r VALUES (?, ?, ?, ?)";
pub const DELETE: &str = "DELETE FROM r WHERE a0 = ? AND a1 = ? AND a2 = ?";

/// A database of these records, kept as long as the program runs; none where SQLite is not installed.
pub fn of_records(records: &[Record]) -> Option<&'static Database> {
    let database: &'static Database = Box::leak(Box::new(Database::open()?));
    database.run(TABLES);
    database.run("BEGIN");
    let insert = database.prepare(INSERT);
    for record in records {
        insert.run(numbers(packed::key(record), packed::payload(record)), |_| {});
    }
    database.run("COMMIT; ANALYZE");
    Some(database)
}

/// A key's values.
pub fn key(key: [i32; 4]) -> [i64; ATTRIBUTES] {
    [key[0].into(), key[1].into(), key[2].into()]
}

/// A key's values and a payload.
pub fn numbers(key: [i32; 4], payload: u32) -> [i64; ATTRIBUTES + 1] {
    [key[0].into(), key[1].into(), key[2].into(), payload.into()]
}

/// The statement of queries that give these attributes.
pub fn select(database: &Database, given: &[usize]) -> Statement {
    select_where(database, given.iter().map(|j| format!("a{j} = ?")).collect())
}

/// The statement of ranges that ask this of the attributes.
pub fn select_range(database: &Database, parts: [Part; ATTRIBUTES]) -> Statement {
    let condition = |(j, part)| match part {
        Part::Free => None,
        Part::One => Some(format!("a{j} = ?")),
        Part::Of64(_) => Some(format!("a{j} BETWEEN ? AND ?")),
    };
    select_where(database, parts.into_iter().enumerate().filter_map(condition).collect())
}

/// The statement of the records that meet all conditions.
fn select_where(database: &Database, conditions: Vec<String>) -> Statement {
    let condition = if conditions.is_empty() { "1".into() } else { conditions.join(" AND ") };
    database.prepare(&format!("SELECT a0, a1, a2, payload FROM r WHERE {condition}"))
}

/// Writes the matching records, in the order of an index, into the output while whole ones fit; how many match.
pub fn query(select: &Statement, query: [Option<i32>; 4], out: &mut [u8]) -> u64 {
    list(select, query.into_iter().flatten().map(i64::from), out)
}

/// The same of the records inside a range, which asks this of the attributes.
pub fn range(select: &Statement, parts: [Part; ATTRIBUTES], range: Intervals, out: &mut [u8]) -> u64 {
    let ends = |(part, ends): (Part, Option<(i32, i32)>)| {
        let (low, high) = ends.unwrap_or_default();
        [(part != Part::Free).then_some(low), matches!(part, Part::Of64(_)).then_some(high)]
    };
    list(select, parts.into_iter().zip(range).flat_map(ends).flatten().map(i64::from), out)
}

/// The same of a statement with these numbers.
#[inline]
fn list(select: &Statement, numbers: impl Iterator<Item = i64>, out: &mut [u8]) -> u64 {
    let out: &mut [Record] = out.as_chunks_mut().0;
    let mut total = 0;
    select.run(numbers, |row| {
        if let Some(place) = out.get_mut(total) {
            for j in 0..3 {
                place[2 * j..2 * j + 2].copy_from_slice(&(row.number(j as i32) as u16).to_le_bytes());
            }
            place[8..].copy_from_slice(&(row.number(3) as u32).to_le_bytes());
        }
        total += 1;
    });
    total as u64
}

/// The bytes of a database's pages.
pub fn bytes(database: &Database) -> usize {
    database.number("PRAGMA page_count") * database.number("PRAGMA page_size")
}

/// How many records a database has.
pub fn count(database: &Database) -> usize {
    database.number("SELECT count(*) FROM r")
}
