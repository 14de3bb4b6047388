//! Slices as they are lent to a call: filled, and with guard bytes on both sides.

const GUARD: usize = 16;

/// What a slice holds before it is written: for most inputs bytes that differ from their neighbours, for some small
/// entries, which could pass for a call's own.
fn filling(place: usize, salt: usize) -> u8 {
    let own = (salt >> 8) as u8;
    match (salt % 4, place % 2) {
        (0, 0) => own % 4,
        (0, _) => 0,
        _ => (place.wrapping_mul(97) ^ (place >> 7)) as u8 ^ own,
    }
}

#[derive(Clone, PartialEq, Eq)]
pub struct Lent {
    bytes: Vec<u8>,
    from: usize,
    to: usize,
}

impl Lent {
    /// A slice with this content. The salt settles the guards' bytes, and moves the slice off its alignment.
    pub fn holding(content: &[u8], salt: usize) -> Lent {
        let mut lent = Lent::filled(content.len(), salt);
        lent.slice().copy_from_slice(content);
        lent
    }

    /// A slice of so many bytes to be written.
    pub fn filled(length: usize, salt: usize) -> Lent {
        let from = GUARD + (salt >> 2) % 8;
        let to = from + length;
        let bytes = (0..to + GUARD).map(|place| filling(place, salt)).collect();
        Lent { bytes, from, to }
    }

    pub fn slice(&mut self) -> &mut [u8] {
        &mut self.bytes[self.from..self.to]
    }

    pub fn bytes(&self) -> &[u8] {
        &self.bytes[self.from..self.to]
    }

    /// The first place, counted from the slice's first byte, where two differ, with both bytes.
    pub fn difference(&self, other: &Lent) -> Option<(isize, u8, u8)> {
        let mut pairs = self.bytes.iter().zip(&other.bytes);
        let place = pairs.position(|(a, b)| a != b)?;
        let at = place as isize - self.from as isize;
        Some((at, self.bytes[place], other.bytes[place]))
    }

    pub fn hexadecimal(&self) -> String {
        let bytes = self.bytes().iter();
        bytes.map(|byte| format!("{byte:02X}")).collect()
    }
}
