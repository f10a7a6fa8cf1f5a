//! Reading and writing bytes. All numbers in layouts have the high byte first.

use crate::position::{Identifier, Position};

/// Reads fields one after the other; `None` once the bytes run out.
pub(crate) struct Reader<'a> {
    bytes: &'a [u8],
    spot: usize,
}

impl<'a> Reader<'a> {
    pub fn new(bytes: &'a [u8]) -> Self {
        Reader { bytes, spot: 0 }
    }

    /// How many bytes have been read.
    pub fn used(&self) -> usize {
        self.spot
    }

    pub fn take(&mut self, length: usize) -> Option<&'a [u8]> {
        let rest = self.bytes.get(self.spot..)?;
        let taken = rest.get(..length)?;
        self.spot += length;
        Some(taken)
    }

    pub fn byte(&mut self) -> Option<u8> {
        self.take(1)?.first().copied()
    }

    /// A number of two bytes.
    pub fn short(&mut self) -> Option<u16> {
        let bytes = self.take(2)?.try_into().ok()?;
        Some(u16::from_be_bytes(bytes))
    }

    /// A number of four bytes.
    pub fn long(&mut self) -> Option<u32> {
        let bytes = self.take(4)?.try_into().ok()?;
        Some(u32::from_be_bytes(bytes))
    }

    /// A line's position of this many identifiers.
    pub fn position(&mut self, count: usize) -> Option<Position> {
        if count > Position::LIMIT {
            return None;
        }
        let mut identifiers = Vec::with_capacity(count);
        for _ in 0..count {
            let integer = self.short()?;
            let site = self.byte()?;
            identifiers.push(Identifier { integer, site });
        }
        Position::of_line(identifiers)
    }
}

/// Appends a position's identifiers, three bytes each.
pub(crate) fn push_position(out: &mut Vec<u8>, position: &Position) {
    for identifier in position.identifiers() {
        out.extend_from_slice(&identifier.integer.to_be_bytes());
        out.push(identifier.site);
    }
}

/// Appends a number that is known to fit in one byte (a count of at most 48).
pub(crate) fn push_count(out: &mut Vec<u8>, count: usize) {
    out.push(u8::try_from(count).unwrap_or(u8::MAX));
}

/// Writes bytes at the front of a buffer that has room for them; the bytes
/// after them stay.
pub(crate) fn put_front(buffer: &mut [u8], bytes: &[u8]) {
    if let Some(front) = buffer.get_mut(..bytes.len()) {
        front.copy_from_slice(bytes);
    }
}

/// The used front of a field, if what is unused is zero.
pub(crate) fn used_part(field: &[u8], used: usize) -> Option<&[u8]> {
    let part = field.get(..used)?;
    let unused = field.get(used..)?;
    let is_zero = |piece: &[u8]| piece.iter().fold(0, |all, byte| all | byte) == 0;
    unused.chunks(64).all(is_zero).then_some(part)
}
