//! The loader for field tables, and what a tag means under a table.

use super::{big_endian, refuse, Answer, TABLE};

pub const MOST_ENTRIES: usize = 64;

#[derive(Clone, Copy, Debug, PartialEq, Eq)]
pub enum Kind {
    Raw,
    Uint,
    Int,
    String,
    Text,
    Message,
}

impl Kind {
    pub fn number(self) -> u64 {
        match self {
            Kind::Raw => 0,
            Kind::Uint => 1,
            Kind::Int => 2,
            Kind::String => 3,
            Kind::Text => 4,
            Kind::Message => 5,
        }
    }

    /// The kind that a table record names; 0 names none.
    fn of_record(octet: u8) -> Option<Kind> {
        match octet {
            1 => Some(Kind::Uint),
            2 => Some(Kind::Int),
            3 => Some(Kind::String),
            4 => Some(Kind::Text),
            5 => Some(Kind::Message),
            _ => None,
        }
    }
}

#[derive(Clone, Copy, Debug, PartialEq, Eq)]
pub struct Entry {
    pub message: u8,
    pub tag: u16,
    pub kind: Kind,
    pub inner: u8,
    /// What its record marks; it has an effect under revision 2 only.
    pub single: bool,
}

#[derive(Clone, Debug, Default, PartialEq, Eq)]
pub struct Table {
    pub entries: Vec<Entry>,
}

impl Table {
    /// The kind of a tag at a message number, and the inner message number.
    pub fn meaning(&self, message: u8, tag: u16) -> (Kind, u8) {
        self.entry(message, tag).map_or((Kind::Raw, 0), |entry| (entry.kind, entry.inner))
    }

    /// Whether a message with this number may have a field with this tag once only.
    pub fn is_single(&self, revision: u64, message: u8, tag: u16) -> bool {
        revision == 2 && self.entry(message, tag).is_some_and(|entry| entry.single)
    }

    fn entry(&self, message: u8, tag: u16) -> Option<&Entry> {
        self.entries.iter().find(|entry| entry.message == message && entry.tag == tag)
    }
}

/// Loads a table. The first faulty record is refused with 2 at its start.
pub fn load(octets: &[u8]) -> Answer<Table> {
    let mut table = Table::default();
    let mut place = 0;
    while place < octets.len() {
        let Some((entry, size)) = next_entry(&table, &octets[place..]) else {
            return refuse(TABLE, place);
        };
        table.entries.push(entry);
        place += size;
    }
    Ok(table)
}

/// The entry of the record at the front of `rest` and how many octets the record has, or none if it is faulty.
fn next_entry(table: &Table, rest: &[u8]) -> Option<(Entry, usize)> {
    if table.entries.len() == MOST_ENTRIES {
        return None;
    }
    let (entry, size) = read_record(rest)?;
    let seen = |old: &Entry| old.message == entry.message && old.tag == entry.tag;
    if table.entries.iter().any(seen) {
        return None;
    }
    Some((entry, size))
}

/// A record is 01, a length on two octets, and so many octets: an entry, and for length 6 its mark.
fn read_record(rest: &[u8]) -> Option<(Entry, usize)> {
    let (front, rest) = rest.split_at_checked(3)?;
    if front[0] != 1 {
        return None;
    }
    let (octets, single) = match big_endian(&front[1..]) {
        5 => (rest.get(..5)?, false),
        6 => (rest.get(..6)?, is_single(rest[5])?),
        _ => return None,
    };
    let (message, tag, inner) = (octets[0], big_endian(&octets[1..3]) as u16, octets[4]);
    let entry = Entry { message, tag, kind: Kind::of_record(octets[3])?, inner, single };
    let most_inner = if entry.kind == Kind::Message { 15 } else { 0 };
    if entry.message > 15 || entry.inner > most_inner {
        return None;
    }
    Some((entry, 3 + octets.len()))
}

fn is_single(mark: u8) -> Option<bool> {
    match mark {
        0 => Some(false),
        1 => Some(true),
        _ => None,
    }
}
