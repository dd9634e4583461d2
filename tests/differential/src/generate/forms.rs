//! Messages that are short, or short but for one control part or one number, and fields at the limits of the forms.

use super::samples::entries;
use super::trees::{self, field, Choose};
use super::{tables, texts};
use crate::oracle::message::{Field, Value};
use crate::rng::Rng;
use std::sync::OnceLock;

/// Takes the shortest form of every part but one, and for that one a form so many steps longer, or the longest. The parts are the
/// tag, the length and the number of each field, in the order in which they are asked for.
struct AllButOne {
    one: usize,
    steps: usize,
    asked: usize,
}

impl AllButOne {
    fn choose(&mut self, forms: usize) -> usize {
        let this = self.asked;
        self.asked += 1;
        if this == self.one {
            self.steps.min(forms - 1)
        } else {
            0
        }
    }
}

impl Choose for AllButOne {
    fn control(&mut self, forms: usize) -> usize {
        self.choose(forms)
    }

    fn number(&mut self, forms: usize) -> usize {
        self.choose(forms)
    }
}

/// The octets of a tree that are short but for one part, and how many parts there are.
pub fn short_but_for(fields: &[Field], one: usize, steps: usize) -> (Vec<u8>, usize) {
    let mut choose = AllButOne { one, steps, asked: 0 };
    let octets = trees::octets_in(fields, &mut choose);
    (octets, choose.asked)
}

/// The octets of a tree, one time in five in the shortest form, else short but for one part.
pub fn almost_short(rng: &mut Rng, fields: &[Field]) -> Vec<u8> {
    let (short, parts) = short_but_for(fields, usize::MAX, 0);
    if parts == 0 || rng.chance(20) {
        return short;
    }
    short_but_for(fields, rng.below(parts), rng.from_to(1, 4)).0
}

/// Messages inside each other, three to eight deep, under a table like the one below.
pub fn deep_tree(rng: &mut Rng) -> Vec<Field> {
    let mut fields = leaves(rng);
    for _ in 0..rng.from_to(2, 7) {
        let mut outer = leaves(rng);
        outer.push(field(1, Value::Message(fields)));
        outer.extend(leaves(rng));
        fields = outer;
    }
    fields
}

fn leaves(rng: &mut Rng) -> Vec<Field> {
    let leaf = |rng: &mut Rng| match rng.below(6) {
        0..=1 => field(2, Value::Uint(rng.number())),
        2..=3 => field(3, Value::Int(trees::signed(rng))),
        4 => field(5, Value::Text(texts::good(rng))),
        _ => {
            let length = rng.pick(&[0, 1, 5, 11, 12, 13, 40]);
            field(tables::tag(rng).max(6), Value::Raw(rng.octets(length)))
        }
    };
    (0..rng.below(3)).map(|_| leaf(rng)).collect()
}

/// Tag 1 of message 0 is message 0 again; tags 2 to 5 are a uint, an int, a string and a text.
pub fn table() -> &'static [u8] {
    static TABLE: OnceLock<Vec<u8>> = OnceLock::new();
    TABLE.get_or_init(|| entries("0 1 5 0, 0 2 1 0, 0 3 2 0, 0 4 3 0, 0 5 4 0"))
}

const DEPTHS: usize = 8;
const STEPS: usize = 4;
/// The parts of one level without its message field: a tag and a length for each of eight fields, and four numbers.
const LEVEL_PARTS: usize = 8 * 2 + 4;

/// How many parts the tree of a depth has.
pub const fn parts(depth: usize) -> usize {
    depth * LEVEL_PARTS + (depth - 1) * 2
}

/// A tree with fields of every kind at each level, whose numbers are at limits.
pub fn tree(depth: usize) -> Vec<Field> {
    let mut fields = vec![field(2, Value::Uint(300)), field(3, Value::Int(-128))];
    if depth > 1 {
        fields.push(field(1, Value::Message(tree(depth - 1))));
    }
    fields.extend([
        field(3, Value::Int(128)),
        field(2, Value::Uint(0)),
        field(4, Value::String(vec![0; 12])),
        field(5, Value::Text(b"kWh".to_vec())),
        field(14, Value::Raw(vec![0])),
        field(300, Value::Raw(vec![])),
    ]);
    fields
}

/// How many messages there are of each number of steps: for every depth one for each part, and the short one.
const TREES: usize = {
    let (mut sum, mut depth) = (0, 1);
    while depth <= DEPTHS {
        sum += parts(depth) + 1;
        depth += 1;
    }
    sum
};
pub const ALL_BUT_ONE: u64 = (STEPS * TREES) as u64;

/// The trees above under `table`, short but for each of their parts in turn.
pub fn all_but_one(number: u64) -> Vec<u8> {
    let (steps, mut one) = (1 + number as usize / TREES, number as usize % TREES);
    let mut depth = 1;
    while one > parts(depth) {
        one -= parts(depth) + 1;
        depth += 1;
    }
    short_but_for(&tree(depth), one, steps).0
}

/// Puts a message that stands `depth` deep into the messages around it, under a table in which tag 1 is message 0 again.
pub fn around(mut octets: Vec<u8>, depth: usize) -> Vec<u8> {
    for _ in 1..depth {
        octets = [shortest_control(1, octets.len()), octets].concat();
    }
    octets
}

fn shortest_control(tag: u16, length: usize) -> Vec<u8> {
    trees::control_in(tag, length as u64, &mut AllButOne { one: usize::MAX, steps: 0, asked: 0 })
}

const FRONTS: [u8; 7] = [0x00, 0x01, 0x7f, 0x80, 0x81, 0xc0, 0xff];
const RESTS: [[u8; 6]; 3] = [[0; 6], [0xff; 6], [0, 0, 0, 0, 0, 1]];
pub const NUMBERS: u64 = (2 * 2 * 8 * RESTS.len() * FRONTS.len() * FRONTS.len()) as u64;

/// Under `table`: uints and ints of one to eight octets with the first two and the others at limits, at the depths 1 and 8.
pub fn number_at_limits(number: u64) -> Vec<u8> {
    let mut digits = Digits(number as usize);
    let (first, second) = (digits.pick(&FRONTS), digits.pick(&FRONTS));
    let rest = digits.pick(&RESTS);
    let (width, tag, depth) = (1 + digits.below(8), 2 + digits.below(2) as u16, digits.pick(&[1, 8]));
    let contents = match width {
        1 => vec![first],
        _ => [&[first, second][..], &rest[8 - width..]].concat(),
    };
    around([shortest_control(tag, width), contents].concat(), depth)
}

const TAGS: [u16; 11] = [0, 2, 12, 13, 14, 15, 254, 255, 256, 257, 65_535];
const LENGTHS: [usize; 9] = [0, 1, 11, 12, 13, 254, 255, 256, 257];
const KINDS: usize = 6;
pub const CONTROLS: u64 = (TAGS.len() * 3 * LENGTHS.len() * 5 * KINDS * 2) as u64;

/// The steps from the shortest form for a tag and for a length, as far as there are such forms.
struct Steps(Vec<usize>);

impl Choose for Steps {
    fn control(&mut self, forms: usize) -> usize {
        self.0.remove(0).min(forms - 1)
    }

    fn number(&mut self, _forms: usize) -> usize {
        unreachable!("control parts alone are asked for")
    }
}

/// A table and a message of one field of each kind, its tag and its length at limits, in each of their forms, outermost and in the
/// innermost message that may be.
pub fn control_at_limits(number: u64) -> (Vec<u8>, Vec<u8>) {
    let mut digits = Digits(number as usize);
    let (tag, length, kind) = (digits.pick(&TAGS), digits.pick(&LENGTHS), digits.below(KINDS));
    let mut steps = Steps(vec![digits.below(3), digits.below(5)]);
    let deepest = if kind == 5 { 7 } else { 8 };
    let depth = digits.pick(&[1, deepest]);
    let table = match kind {
        0 => entries("0 1 5 0"),
        _ => entries(&format!("0 1 5 0, 0 {tag:x} {kind} 0")),
    };
    // As a message, each of these octets is a field of no contents.
    let contents = vec![0x30; length];
    (table, around([trees::control_in(tag, length as u64, &mut steps), contents].concat(), depth))
}

/// Takes a number apart.
pub struct Digits(pub usize);

impl Digits {
    pub fn below(&mut self, bound: usize) -> usize {
        let digit = self.0 % bound;
        self.0 /= bound;
        digit
    }

    pub fn pick<T: Copy>(&mut self, choices: &[T]) -> T {
        choices[self.below(choices.len())]
    }
}
