//! Entries as bytes: two each, highest first.
use super::plan::{Row, Size};

pub const SIZE_BYTES: usize = 8;
pub const ROW_BYTES: usize = 6;

/// The entry in two bytes.
pub fn entry(bytes: &[u8]) -> u16 {
    u16::from_be_bytes([bytes[0], bytes[1]])
}

fn number(bytes: &[u8]) -> usize {
    usize::from(entry(bytes))
}

pub fn decode(bytes: &[u8], table: &mut [u16]) {
    for (place, pair) in table.iter_mut().zip(bytes.chunks_exact(2)) {
        *place = entry(pair);
    }
}

/// Writes the entries into the first bytes.
pub fn encode(table: &[u16], bytes: &mut [u8]) {
    for (pair, entry) in bytes.chunks_exact_mut(2).zip(table) {
        pair.copy_from_slice(&entry.to_be_bytes());
    }
}

pub fn decode_rows(bytes: &[u8], rows: &mut [Row]) {
    for (row, bytes) in rows.iter_mut().zip(bytes.chunks_exact(ROW_BYTES)) {
        row.kind = entry(bytes);
        row.first = entry(&bytes[2..]);
        row.practice = entry(&bytes[4..]);
    }
}

pub fn encode_rows(rows: &[Row], bytes: &mut [u8]) {
    for (bytes, row) in bytes.chunks_exact_mut(ROW_BYTES).zip(rows) {
        encode(&[row.kind, row.first, row.practice], bytes);
    }
}

pub fn decode_size(bytes: &[u8]) -> Size {
    Size {
        n: number(bytes),
        m: number(&bytes[2..]),
        t: number(&bytes[4..]),
        start: number(&bytes[6..]),
    }
}

/// Every number of a size record fits an entry.
pub fn encode_size(size: Size, bytes: &mut [u8]) {
    let numbers = [size.n, size.m, size.t, size.start];
    encode(&numbers.map(|number| number as u16), bytes);
}
