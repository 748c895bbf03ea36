//! Lines for the programs that read them: random ones, and the edges of the line form.
use super::samples::random_payload;
use crate::random::Random;

/// Lines at the edges of the line form, one run of them.
pub const EDGES: [&[u8]; 55] = [
    b"list *",
    b"put 1 2",
    b"shape",
    b"shape *",
    b"shape 0",
    b"shape 0 7 7 7 7 7 7 7 7",
    b"shape 5",
    b"shape 2 2 2",
    b"shape 2 2 2 2 2",
    b"shape 2 2 * 2",
    b"shape 4294967296",
    b"shape 0 4294967296",
    b"shape 1 17 1",
    b"shape 1 0 1",
    b"shape 1 1 17",
    b"shape 1 1 0",
    b"shape 2 0 3 2",
    b"shape 2 3 17 17",
    b"shape 2 3 3 17",
    b"shape 5 0 0 0 0 0 0",
    b"shape 2 0 3",
    b"shape 1 4294967296 0",
    b"list 0",
    b"shape 2 2 2 2",
    b"put 0 0 1\r",
    b"put  0 0 1",
    b" put 0 0 1",
    b"put 0 0 1 ",
    b"put 000 00000000000000000000000 0000004294967295",
    b"put 1 1 4294967296",
    b"put +1 1 1",
    b"put 1 -1 1",
    b"cut -1 1",
    b"list * -1",
    b"shape 2 2 -2 2",
    b"put 2147483648 0 1",
    b"cut 4294967295 0",
    b"list 4294967295 *",
    b"put 1\t1 1",
    b"put 4 0 1",
    b"put 0 0 5",
    b"put 0 0 0",
    b"put 1 1 000000000000",
    b"put 4 0 0",
    b"put * 0 1",
    b"cut *",
    b"cut 3 3",
    b"list * *",
    b"list 0 *",
    b"list * 4",
    b"list *",
    b"list ** *",
    b"",
    b"LIST * *",
    b"shape 0",
];

/// A line of a random kind, of values below 2^width.
pub fn random_line(random: &mut Random, widths: &[u64]) -> String {
    let value = |random: &mut Random, width: u64| match random.below(40) {
        0 => random.number() as u32 as u64,
        _ => random.number() & ((1 << width) - 1),
    };
    let values: Vec<String> = widths.iter().map(|&width| value(random, width).to_string()).collect();
    match random.below(100) {
        0..=49 => format!("put {} {}", values.join(" "), random_payload(random)),
        50..=74 => format!("cut {}", values.join(" ")),
        75..=95 => {
            let items: Vec<&str> =
                values.iter().map(|v| if random.below(2) == 0 { "*" } else { &v[..] }).collect();
            format!("list {}", items.join(" "))
        }
        96 => format!("list {}", vec!["*"; widths.len()].join(" ")),
        97 => format!("put {}", values.join(" ")),
        98 => format!("shape {} {}", random.between(0, 6), values.join(" ")),
        _ => format!("cut {} ", values.join(" ")),
    }
}
