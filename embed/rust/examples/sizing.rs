//! A store sized for 20,000 random gateway rows: codes from 0 to 99, slots from 0 to 23, releases from 398 to 479. The
//! ranks of the values are spread over the least widths, and a spare attribute of two bits evens out the cells. Fills
//! the store, says what was refused, and asks for code 30 and the releases from 400 to 479.
use mdeh::{rank, spread, Range, Record, Refusal, Room, Shape, Store, RECORD_BYTES, STATE_WORDS};

/// Code, slot and release in the least widths, and the spare attribute; a page holds sixteen records.
const SHAPE: Shape = Shape::new(&[7, 5, 7, 2], 16);

/// How many codes, slots and releases there are.
const COUNTS: [u32; 3] = [100, 24, 82];

/// The least code, slot and release.
const FIRST: [u32; 3] = [0, 0, 398];

const ROWS: u32 = 20_000;

/// Random numbers.
struct Random(u64);

impl Random {
    fn next(&mut self) -> u32 {
        self.0 ^= self.0 << 13;
        self.0 ^= self.0 >> 7;
        self.0 ^= self.0 << 17;
        (self.0 >> 33) as u32
    }

    /// A random code, slot and release.
    fn row(&mut self) -> [u32; 3] {
        [0, 1, 2].map(|j| FIRST[j] + self.next() % COUNTS[j])
    }
}

fn main() -> Result<(), Refusal> {
    let Room { words, bytes, holds } = SHAPE.room(ROWS);
    let fit = if holds { "fit" } else { "may not all fit" };
    println!("{words} words, {bytes} bytes of pages; keys drawn at random {fit}");
    let mut store = Store::fresh(SHAPE, [0; STATE_WORDS], vec![0; words], vec![0; bytes])?;
    let mut random = Random(2_463_534_242);
    let (mut stored, mut repeated, mut others) = (0, 0, 0);
    for payload in 1..=ROWS {
        let row = random.row();
        match store.insert(key(row), payload) {
            Ok(_) => stored += 1,
            Err(Refusal::Stored) => repeated += 1,
            Err(refusal) => {
                println!("row {payload}: {refusal}");
                others += 1;
            }
        }
    }
    println!("{stored} stored, {repeated} refused as stored already, {others} refused otherwise");
    let wanted = Range::all().within(0, value(0, 30)..=value(0, 30)).within(2, value(2, 400)..=value(2, 479));
    // how many there are, then all of them
    let mut out = vec![0; store.range(wanted, &mut [])?.total as usize * RECORD_BYTES];
    let found = store.range(wanted, &mut out)?;
    println!("code 30, releases 400 to 479: {} records, {} pages read", found.total, found.reads);
    for record in found.records().take(3) {
        let [code, slot, release] = row(record);
        println!("code {code}, slot {slot}, release {release}, row {}", record.payload);
    }
    Ok(())
}

/// The key of a code, a slot and a release: their ranks, spread, and the sum of the ranks modulo 4.
fn key(row: [u32; 3]) -> [i32; 4] {
    let [code, slot, release] = [0, 1, 2].map(|j| value(j, row[j]));
    let ranks = [0, 1, 2].map(|j| row[j] - FIRST[j]);
    [code, slot, release, (ranks.iter().sum::<u32>() % 4) as i32]
}

/// What is stored for a code, a slot or a release: attribute 0, 1 or 2.
fn value(attribute: usize, number: u32) -> i32 {
    spread(number - FIRST[attribute], COUNTS[attribute], SHAPE.widths[attribute]) as i32
}

/// The code, the slot and the release of a record.
fn row(record: Record) -> [u32; 3] {
    [0, 1, 2].map(|j| FIRST[j] + rank(record.values[j] as u32, COUNTS[j], SHAPE.widths[j]))
}
