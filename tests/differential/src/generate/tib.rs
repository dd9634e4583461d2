//! Cases for the readers of TibMsg and TibrvMsg.

use super::{damage, reals};
use crate::call::Call;
use crate::oracle::{tibmsg, tibrv, MESSAGE_LIMIT};
use crate::rng::Rng;

pub fn random_tibmsg(rng: &mut Rng) -> Vec<Call> {
    let mut body = Vec::new();
    for _ in 0..field_count(rng) {
        body.extend(tibmsg_field(rng));
    }
    if rng.chance(25) {
        damage::some(rng, &mut body);
    }
    if rng.below(400) == 0 {
        fill_up(rng, &mut body, 9, |rng, size| {
            let mut field = vec![0, 0x83];
            field.extend((size as u32).to_be_bytes());
            field.extend(rng.octets(size));
            field
        });
    }
    let mut message = vec![0xce, 0x13, 0xaa, 0x1f, 1];
    message.extend((body.len() as u32).to_be_bytes());
    message.extend(body);
    damage_header(rng, &mut message);
    tibmsg_calls(rng, &message)
}

pub fn random_tibrv(rng: &mut Rng) -> Vec<Call> {
    let depth = match rng.below(30) {
        0 => 9,
        1..=2 => 8,
        3..=4 => rng.from_to(6, 7),
        _ => 1 + rng.below(5),
    };
    let mut body = tibrv_fields(rng, depth);
    if rng.chance(25) {
        damage::some(rng, &mut body);
    }
    if rng.below(400) == 0 {
        fill_up(rng, &mut body, 8, |rng, size| {
            let mut field = vec![0, 7, 0x7a];
            field.extend((size as u32 + 4).to_be_bytes());
            field.extend(rng.octets(size));
            field
        });
    }
    let mut message = tibrv_message(&body);
    damage_header(rng, &mut message);
    tibrv_calls(rng, &message)
}

pub fn tibmsg_calls(rng: &mut Rng, message: &[u8]) -> Vec<Call> {
    let fields = tibmsg::read(message).map_or(1, |fields| fields.len());
    let mut calls = vec![Call::TibmsgCheck { message: message.into() }];
    for k in some_ks(rng, fields) {
        calls.push(Call::TibmsgField { message: message.into(), k });
    }
    calls
}

pub fn tibrv_calls(rng: &mut Rng, message: &[u8]) -> Vec<Call> {
    let fields = tibrv::read(message).map_or(1, |fields| fields.len());
    let mut calls = vec![Call::TibrvCheck { message: message.into() }];
    for k in some_ks(rng, fields) {
        calls.push(Call::TibrvField { message: message.into(), k });
    }
    calls
}

/// Every k of few fields and the first beyond them, or some of many.
pub(super) fn some_ks(rng: &mut Rng, fields: usize) -> Vec<u64> {
    let mut ks: Vec<u64> = match fields {
        0..=3 => (0..=fields as u64).collect(),
        _ => (0..3).map(|_| rng.below(fields) as u64).collect(),
    };
    if rng.chance(10) {
        ks.push(rng.pick(&[fields as u64, 1 << 32, 1 << 63, u64::MAX]));
    }
    ks
}

pub(super) fn field_count(rng: &mut Rng) -> usize {
    match rng.below(10) {
        0 => 0,
        1..=8 => rng.from_to(1, 4),
        _ => rng.below(20),
    }
}

/// Now and then spoils the header or what it announces.
pub(super) fn damage_header(rng: &mut Rng, message: &mut Vec<u8>) {
    if !rng.chance(8) {
        return;
    }
    let header = message.len().min(9);
    match rng.below(4) {
        0 => message.truncate(rng.below(header + 1)),
        1 => message[rng.below(header)] ^= 1 << rng.below(8),
        2 => message.push(0),
        _ => drop(message.pop()),
    }
}

/// Brings a body, with its header, to the limit of length or one beyond, by one field of no name.
fn fill_up(rng: &mut Rng, body: &mut Vec<u8>, header: usize, make: fn(&mut Rng, usize) -> Vec<u8>) {
    let total = MESSAGE_LIMIT + rng.pick(&[0, 0, 0, 1, 5]);
    let around = make(rng, 0).len();
    let left = total.saturating_sub(header + body.len() + around);
    body.extend(make(rng, left));
}

/// A name with its size: none, a good one, or sometimes a bad one.
fn name(rng: &mut Rng) -> Vec<u8> {
    let length = match rng.below(20) {
        0..=3 => 0,
        4..=17 => rng.from_to(1, 9),
        18 => 255,
        _ => rng.below(256),
    };
    let mut octets = vec![length as u8];
    octets.extend((0..length).map(|_| rng.from_to(1, 255) as u8));
    if length > 0 {
        octets[length] = 0;
    }
    if length > 0 && rng.chance(2) {
        octets[rng.from_to(1, length)] = rng.pick(&[0, 0, 0x41]);
    }
    octets
}

fn tibmsg_field(rng: &mut Rng) -> Vec<u8> {
    let mut octets = name(rng);
    let kind = rng.below(11) as u8;
    let hinted = kind == 8 || kind == 9 || rng.chance(35);
    let long_size = rng.chance(25);
    let (data, hint) = tibmsg_data_and_hint(rng, kind, hinted);
    let long_size = long_size || data.len() > 255;
    octets.push(type_octet(rng, kind, hinted, long_size));
    let size = data.len() as u32;
    match long_size {
        true => octets.extend(size.to_be_bytes()),
        false => octets.push(size as u8),
    }
    octets.extend(data);
    octets.extend(hint);
    octets
}

fn type_octet(rng: &mut Rng, kind: u8, hinted: bool, long_size: bool) -> u8 {
    let octet = kind + 0x40 * u8::from(hinted) + 0x80 * u8::from(long_size);
    match rng.below(60) {
        0 => octet | rng.pick(&[0x10, 0x20, 0x30]),
        1 => octet | 0x0b,
        2 => octet & !0x40,
        _ => octet,
    }
}

/// The data of a field and its hint, which is empty where there is none.
fn tibmsg_data_and_hint(rng: &mut Rng, kind: u8, hinted: bool) -> (Vec<u8>, Vec<u8>) {
    if kind == 8 {
        return array(rng);
    }
    let data = tibmsg_data(rng, kind);
    let hint = match (hinted, kind) {
        (false, _) => vec![],
        (true, 9) => vec![mostly(rng, 6), rng.octet()],
        (true, _) => number_hint(rng),
    };
    (data, hint)
}

fn tibmsg_data(rng: &mut Rng, kind: u8) -> Vec<u8> {
    let bad_size = rng.chance(3);
    let size = match kind {
        5..=7 if bad_size => rng.pick(&[0, 1, 2, 3, 5, 6, 7, 9, 16]),
        5 | 6 => rng.pick(&[1, 2, 4, 8]),
        7 => rng.pick(&[4, 8]),
        10 => rng.pick(&[2, 4]),
        _ => rng.pick(&[0, 0, 1, 3, 12, 200, 255, 256, 300]),
    };
    match (kind, size) {
        (7, 8) => reals::bits(rng).to_be_bytes().to_vec(),
        (7, 4) => real_of_four(rng).to_be_bytes().to_vec(),
        _ => rng.octets(size),
    }
}

/// The 32 bits of a real: near both ends of its exponents, or any.
fn real_of_four(rng: &mut Rng) -> u32 {
    let any = rng.word() as u32;
    match rng.below(6) {
        0 => any & 0x807f_ffff,
        1 => any & 0x807f_ffff & !(0x7f_fffe << rng.below(23)),
        2 => any | 0x7f80_0000,
        3 => any & 0x8000_0000 | 0x7f80_0000 | (any & 1),
        4 => any & 0x8000_0000,
        _ => any,
    }
}

fn array(rng: &mut Rng) -> (Vec<u8>, Vec<u8>) {
    let element = rng.pick(&[1, 2, 4, 8]);
    let mut length = element * rng.pick(&[0, 0, 1, 2, 3, 10, 40]);
    if rng.chance(8) {
        length += rng.below(element + 1);
    }
    let kind = rng.from_to(4, 7) as u8;
    let hint = vec![mostly(rng, kind), mostly(rng, element as u8)];
    (rng.octets(length), hint)
}

fn number_hint(rng: &mut Rng) -> Vec<u8> {
    let octets = rng.pick(&[1, 2, 4, 8]);
    let kind = rng.pick(&[5, 6]);
    let mut hint = vec![mostly(rng, kind), mostly(rng, octets as u8)];
    let value = match rng.below(4) {
        0 => rng.word(),
        1 => 0,
        _ => rng.pick(&[1, 2, 8, 19, 255, 256, 258, 261]),
    };
    hint.extend(&value.to_be_bytes()[8 - octets..]);
    hint
}

/// The octet, or now and then another.
fn mostly(rng: &mut Rng, octet: u8) -> u8 {
    match rng.below(50) {
        0 => rng.octet(),
        1 => rng.pick(&[0, 3, 4, 5, 6, 7, 8, 9, 0x45, 0x46, 0x86]),
        _ => octet,
    }
}

fn tibrv_message(body: &[u8]) -> Vec<u8> {
    let mut message = (body.len() as u32 + 8).to_be_bytes().to_vec();
    message.extend([0x99, 0x55, 0xee, 0xaa]);
    message.extend(body);
    message
}

/// Fields with messages inside them down to a depth.
fn tibrv_fields(rng: &mut Rng, depth: usize) -> Vec<u8> {
    let mut octets = Vec::new();
    let count = if depth > 5 { rng.below(2) } else { field_count(rng) };
    for _ in 0..count {
        octets.extend(tibrv_leaf(rng));
    }
    if depth > 1 {
        octets.extend(tibrv_nested(rng, depth));
    }
    octets
}

fn tibrv_nested(rng: &mut Rng, depth: usize) -> Vec<u8> {
    let inside = tibrv_fields(rng, depth - 1);
    let mut message = tibrv_message(&inside);
    match rng.below(150) {
        0 => message[rng.from_to(4, 7)] ^= 1 << rng.below(8),
        1 => {
            // A message that is too short for its header.
            let length = rng.from_to(4, 7);
            message.truncate(length);
            message[..4].copy_from_slice(&(length as u32).to_be_bytes());
        }
        2 => message[3] = message[3].wrapping_add(rng.pick(&[1, 0xff])),
        3 => message[..4].copy_from_slice(&(rng.below(10) as u32).to_be_bytes()),
        _ => {}
    }
    let mut octets = name(rng);
    octets.push(1);
    octets.push(if rng.chance(1) { rng.pick(&[0x79, 0x7b, 0x10, 0]) } else { 0x7a });
    octets.extend(message);
    octets
}

fn tibrv_leaf(rng: &mut Rng) -> Vec<u8> {
    let mut octets = name(rng);
    octets.push(match rng.below(4) {
        0 => rng.octet(),
        _ => rng.pick(&[0, 2, 3, 7, 8, 9, 10, 11, 12, 13, 32, 34, 39, 45]),
    });
    let length = rng.pick(&[0, 0, 1, 4, 8, 0x76, 0x77, 0x78, 0x79, 300]);
    octets.extend(tibrv_size(rng, length));
    octets.extend(rng.octets(length));
    octets
}

/// The size octets in any form that can hold the length, or now and then bad ones.
fn tibrv_size(rng: &mut Rng, length: usize) -> Vec<u8> {
    let mut two = vec![0x79];
    two.extend((length as u16 + 2).to_be_bytes());
    let mut four = vec![0x7a];
    four.extend((length as u32 + 4).to_be_bytes());
    match rng.below(60) {
        0 => return vec![rng.pick(&[0, 0x7b, 0x7f, 0x80, 0xff])],
        1 => return vec![0x79, 0, rng.below(3) as u8],
        2 => return vec![0x7a, 0, 0, 0, rng.below(5) as u8],
        3 => return vec![0x7a, 0xff, 0xff, 0xff, rng.octet()],
        _ => {}
    }
    match rng.below(3) {
        0 if length < 0x78 => vec![length as u8 + 1],
        0 | 1 => two,
        _ => four,
    }
}
