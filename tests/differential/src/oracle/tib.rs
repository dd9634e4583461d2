//! What TibMsg and TibrvMsg have in common: reading octets in order, and names.

use super::{refuse, Answer, CUT, NAME};

/// Where some octets stand in the lent buffer.
#[derive(Clone, Copy, Debug, Default, PartialEq, Eq)]
pub struct Span {
    pub start: usize,
    pub length: usize,
}

impl Span {
    pub fn of(self, octets: &[u8]) -> &[u8] {
        &octets[self.start..self.start + self.length]
    }
}

/// Reads the parts of one field in order. `end` is the end of the message around the field.
pub struct Parts<'a> {
    pub octets: &'a [u8],
    pub field: usize,
    pub place: usize,
    pub end: usize,
}

impl<'a> Parts<'a> {
    pub fn left(&self) -> usize {
        self.end - self.place
    }

    /// The next octets of a name, size or hint; 3 at the field where some are missing.
    pub fn take(&mut self, length: usize) -> Answer<&'a [u8]> {
        if length > self.left() {
            return refuse(CUT, self.field);
        }
        let part = &self.octets[self.place..self.place + length];
        self.place += length;
        Ok(part)
    }

    pub fn take_one(&mut self) -> Answer<u8> {
        Ok(self.take(1)?[0])
    }

    /// The name size and the name. No name has length 0.
    pub fn name(&mut self) -> Answer<Span> {
        let length = usize::from(self.take_one()?);
        let start = self.place;
        let name = self.take(length)?;
        if length > 0 && name.iter().position(|octet| *octet == 0) != Some(length - 1) {
            return refuse(NAME, self.field);
        }
        Ok(Span { start, length })
    }
}
