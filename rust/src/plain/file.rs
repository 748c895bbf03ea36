//! Files of saved stores (document 02, requests 5 and 7), written and read from its words.
use super::model::Model;
use super::refusal::{key_refused, refusal, shape_refused};
use super::value::{number_in, used_signs};
use crate::host::{Refused, Shape};

/// "Eight bytes of shape follow", and "The trailer is the last 16 bytes".
pub const END: usize = 8 + 16;

/// "12 bytes each".
const RECORD: usize = 12;

/// The bytes of a file of so many records.
pub fn size_of(records: usize) -> usize {
    RECORD * records + END
}

/// What stands behind the records: "d, four widths (unused 0), b, a byte of sign marks (bit j for attribute j, bit 0 the
/// least, written 0 where there is no attribute), and 0"; "the ASCII letters MDEH, then three little-endian 32-bit
/// numbers. These are the distances from the end of the file back to the first byte of the shape and of the file, and
/// the record count."
pub fn end_of(shape: Shape, records: usize) -> Vec<u8> {
    let d = shape.attributes as usize;
    let width = |j: usize| if j < d { shape.widths[j] as u8 } else { 0 };
    let [a, b, c, e] = [0, 1, 2, 3].map(width);
    let mut end = vec![d as u8, a, b, c, e, shape.capacity as u8, used_signs(shape) as u8, 0];
    end.extend(b"MDEH");
    [END, size_of(records), records].iter().for_each(|&number| end.extend((number as u32).to_le_bytes()));
    end
}

/// The file of a model's set: "The file holds the records in split order, 12 bytes each."
pub fn file_of(model: &Model) -> Vec<u8> {
    let mut records = model.records.clone();
    records.sort_by(|r, s| r.bits.cmp(&s.bits));
    let mut file: Vec<u8> = records.iter().flat_map(|record| record.bytes()).collect();
    file.extend(end_of(model.shape, records.len()));
    file
}

/// The model of an accepted load into so many words and page bytes, or the refusal.
pub fn load(file: &[u8], words: usize, bytes: usize) -> Result<Model, Refused> {
    // "12, fewer than 24 bytes, or trailer letters or distances not those of its count and the file's length"
    let Some(count) = whole_count(file) else {
        return Err(refusal(12));
    };
    let (records, end) = file.split_at(file.len() - END);
    let &[attributes, a, b, c, d, capacity, signs, last, ..] = end else { unreachable!("it has 24 bytes") };
    let shape = Shape {
        attributes: attributes.into(),
        widths: [a, b, c, d].map(u32::from),
        capacity: capacity.into(),
        signs: signs.into(),
    };
    // "The load of a saved store uses the same numbers."
    if let Some(refused) = shape_refused(shape) {
        return Err(refused);
    }
    if last != 0 || !is_plain(shape) {
        return Err(refusal(13));
    }
    let records: Vec<([i32; 4], u32)> = records.chunks(RECORD).map(|bytes| record_in(shape, bytes)).collect();
    assert_eq!(records.len(), count);
    if !is_set(shape, &records) {
        return Err(refusal(13));
    }
    // "with P and L set as by Fresh"
    let mut model = Model::fresh(shape, words, bytes)?;
    // "6 and 7 at the first record that meets them"
    records.into_iter().try_for_each(|(key, payload)| model.join(key, payload))?;
    Ok(model)
}

/// How many records a file with the letters and the right distances has.
fn whole_count(file: &[u8]) -> Option<usize> {
    let trailer = file.get(file.len().checked_sub(END)? + 8..)?;
    let number = |at: usize| u32::from_le_bytes(trailer[at..at + 4].try_into().expect("four bytes"));
    let [shape, start, count] = [4, 8, 12].map(|at| number(at) as usize);
    let whole =
        trailer.starts_with(b"MDEH") && shape == END && start == file.len() && start == size_of(count);
    whole.then_some(count)
}

/// Not "an unused width or a mark bit without an attribute that is not 0".
fn is_plain(shape: Shape) -> bool {
    shape.widths[shape.attributes as usize..].iter().all(|&width| width == 0)
        && used_signs(shape) == shape.signs
}

/// Key and payload of a record's bytes.
fn record_in(shape: Shape, bytes: &[u8]) -> ([i32; 4], u32) {
    let field = |j: usize| u16::from_le_bytes([bytes[2 * j], bytes[2 * j + 1]]);
    let key = [0, 1, 2, 3].map(|j| number_in(shape, j, field(j)));
    (key, u32::from_le_bytes(bytes[8..].try_into().expect("four bytes")))
}

/// Not "a value outside its bounds (unused ones 0), or records not strictly rising".
fn is_set(shape: Shape, records: &[([i32; 4], u32)]) -> bool {
    let model = Model::new(shape, 1, 0);
    let fits = records.iter().all(|&(key, _)| !key_refused(shape, key));
    fits && records.windows(2).all(|pair| model.split_bits(pair[0].0) < model.split_bits(pair[1].0))
}
