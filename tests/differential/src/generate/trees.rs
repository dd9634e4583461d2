//! Random trees under a table, and their octets in random longer forms.

use super::{tables, texts};
use crate::oracle::message::{Field, Value};
use crate::oracle::shorten::{int_in, least_uint};
use crate::oracle::table::{Kind, Table};
use crate::oracle::DEPTH_LIMIT;
use crate::rng::Rng;

/// The limits of the direct and the longer length forms.
const LENGTHS: [usize; 12] = [8, 9, 10, 11, 12, 13, 253, 254, 255, 256, 257, 300];

pub struct Maker<'a> {
    pub table: &'a Table,
    pub revision: u64,
    /// How many more fields may be made.
    pub budget: usize,
}

impl Maker<'_> {
    pub fn fields(&mut self, rng: &mut Rng, number: u8, depth: u64) -> Vec<Field> {
        let wanted = match rng.below(10) {
            0 => 0,
            1..=7 => rng.from_to(1, 5),
            _ => rng.from_to(3, 24),
        };
        let mut fields = Vec::new();
        while fields.len() < wanted && self.budget > 0 {
            self.budget -= 1;
            let tag = self.allowed_tag(rng, number, depth, &fields);
            fields.push(self.field(rng, number, depth, tag));
        }
        fields
    }

    /// The tag of one more field. One that would be refused is taken now and then only.
    fn allowed_tag(&self, rng: &mut Rng, number: u8, depth: u64, before: &[Field]) -> u16 {
        let mut tag = self.tag(rng, number);
        while self.refuses(number, depth, before, tag) && !rng.chance(3) {
            tag = rng.word() as u16;
        }
        tag
    }

    /// Whether a field with this tag would be a message too deep, or a single one that came before.
    fn refuses(&self, number: u8, depth: u64, before: &[Field], tag: u16) -> bool {
        let too_deep = depth >= DEPTH_LIMIT && self.table.meaning(number, tag).0 == Kind::Message;
        too_deep || self.table.is_single(self.revision, number, tag) && before.iter().any(|field| field.tag == tag)
    }

    /// A field with a tag that is good but for what was said above.
    pub fn field(&mut self, rng: &mut Rng, number: u8, depth: u64, tag: u16) -> Field {
        let (kind, inner) = self.table.meaning(number, tag);
        let value = match kind {
            Kind::Raw => Value::Raw(some_octets(rng)),
            Kind::Uint => Value::Uint(rng.number()),
            Kind::Int => Value::Int(signed(rng)),
            Kind::String => Value::String(some_octets(rng)),
            Kind::Text => Value::Text(texts::good(rng)),
            Kind::Message => Value::Message(self.fields(rng, inner, depth + 1)),
        };
        field(tag, value)
    }

    fn tag(&self, rng: &mut Rng, number: u8) -> u16 {
        let here = |entry: &&crate::oracle::table::Entry| entry.message == number;
        let tags: Vec<u16> = self.table.entries.iter().filter(here).map(|entry| entry.tag).collect();
        if tags.is_empty() || rng.chance(20) {
            return tables::tag(rng);
        }
        rng.pick(&tags)
    }
}

/// A field that was made and not read, so that it has no place.
pub fn field(tag: u16, value: Value) -> Field {
    Field { tag, value, start: 0, length: 0 }
}

pub fn signed(rng: &mut Rng) -> i64 {
    let size = rng.number() as i64;
    if rng.chance(50) {
        size.wrapping_neg()
    } else {
        size
    }
}

pub fn some_octets(rng: &mut Rng) -> Vec<u8> {
    let length = match rng.below(20) {
        0..=12 => rng.below(6),
        13..=16 => rng.below(16),
        17..=18 => rng.pick(&LENGTHS),
        _ => rng.below(600),
    };
    rng.octets(length)
}

/// Chooses the forms of a message. A tag, a length or a number has so many forms, the shortest first; the answer is the one to take.
pub trait Choose {
    fn control(&mut self, forms: usize) -> usize;
    fn number(&mut self, forms: usize) -> usize;
}

/// How often, of 100, a longer form than the shortest is taken.
#[derive(Clone, Copy)]
pub struct Style {
    pub control: usize,
    pub number: usize,
}

impl Style {
    pub fn random(rng: &mut Rng) -> Style {
        Style { control: rng.pick(&[0, 10, 40, 100]), number: rng.pick(&[0, 20, 60, 100]) }
    }
}

struct AtRandom<'a> {
    rng: &'a mut Rng,
    style: Style,
}

impl AtRandom<'_> {
    fn choose(&mut self, longer: usize, forms: usize) -> usize {
        if self.rng.chance(longer) {
            self.rng.below(forms)
        } else {
            0
        }
    }
}

impl Choose for AtRandom<'_> {
    fn control(&mut self, forms: usize) -> usize {
        self.choose(self.style.control, forms)
    }

    fn number(&mut self, forms: usize) -> usize {
        self.choose(self.style.number, forms)
    }
}

/// The octets of a tree, in forms as the style says.
pub fn octets(rng: &mut Rng, fields: &[Field], style: Style) -> Vec<u8> {
    octets_in(fields, &mut AtRandom { rng, style })
}

/// The octets of a tree, in the forms that are chosen.
pub fn octets_in(fields: &[Field], choose: &mut impl Choose) -> Vec<u8> {
    let mut all = Vec::new();
    for field in fields {
        let contents = contents(&field.value, choose);
        all.extend(control_in(field.tag, contents.len() as u64, choose));
        all.extend(contents);
    }
    all
}

fn contents(value: &Value, choose: &mut impl Choose) -> Vec<u8> {
    let mut forms = match value {
        Value::Uint(number) => uint_forms(*number),
        Value::Int(number) => (0..=8).filter_map(|octets| int_in(*number, octets)).collect(),
        Value::Message(fields) => return octets_in(fields, choose),
        Value::Raw(octets) | Value::String(octets) | Value::Text(octets) => return octets.clone(),
    };
    let chosen = choose.number(forms.len());
    forms.swap_remove(chosen)
}

fn uint_forms(number: u64) -> Vec<Vec<u8>> {
    let least = least_uint(number);
    let padded = |zeros: usize| {
        let mut octets = vec![0; zeros];
        octets.extend(&least);
        octets
    };
    (0..=8 - least.len()).map(padded).collect()
}

/// A control part in the shortest or, so often of 100, any form.
pub fn control(rng: &mut Rng, tag: u16, length: u64, longer: usize) -> Vec<u8> {
    control_in(tag, length, &mut AtRandom { rng, style: Style { control: longer, number: 0 } })
}

/// A control part in the forms that are chosen: first that of the tag, then that of the length.
pub fn control_in(tag: u16, length: u64, choose: &mut impl Choose) -> Vec<u8> {
    let tag = u64::from(tag);
    let tag_forms = [(14, tag as u8, 0), (256, 0xe, 1), (65_536, 0xf, 2)];
    let length_forms = [(12, length as u8, 0), (256, 0xc, 1), (65_536, 0xd, 2), (1 << 32, 0xe, 4), (u64::MAX, 0xf, 8)];
    let (high, tag_octets) = form(&tag_forms, tag, choose);
    let (low, length_octets) = form(&length_forms, length, choose);
    let mut part = vec![(high << 4) | low];
    part.extend(&tag.to_be_bytes()[8 - tag_octets..]);
    part.extend(&length.to_be_bytes()[8 - length_octets..]);
    part
}

/// One of the forms (limit, nybble, octets that follow) that can hold the number.
fn form(forms: &[(u64, u8, usize)], number: u64, choose: &mut impl Choose) -> (u8, usize) {
    let shortest = forms.iter().position(|form| number < form.0).unwrap_or(forms.len() - 1);
    let chosen = shortest + choose.control(forms.len() - shortest);
    (forms[chosen].1, forms[chosen].2)
}
