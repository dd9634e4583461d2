//! Damage to octets of any format.

use crate::rng::Rng;

/// Octets that mean something in one of the formats.
const TELLING: [u8; 33] = [
    0x00, 0x01, 0x02, 0x07, 0x08, 0x0b, 0x0c, 0x10, 0x20, 0x40, 0x46, 0x48, 0x49, 0x78, 0x79, 0x7a, 0x7b, 0x7f, 0x80, 0x8f, 0x90,
    0x9f, 0xa0, 0xbf, 0xc0, 0xc1, 0xc2, 0xe0, 0xed, 0xf0, 0xf4, 0xf5, 0xff,
];

/// One to three random changes.
pub fn some(rng: &mut Rng, octets: &mut Vec<u8>) {
    for _ in 0..rng.pick(&[1, 1, 1, 2, 3]) {
        one(rng, octets);
    }
}

fn one(rng: &mut Rng, octets: &mut Vec<u8>) {
    let length = octets.len();
    if length == 0 {
        octets.push(rng.octet());
        return;
    }
    let place = rng.below(length);
    match rng.below(12) {
        0..=1 => octets.truncate(place),
        2..=3 => octets[place] ^= 1 << rng.below(8),
        4 => octets[place] = rng.pick(&TELLING),
        5 => octets[place] = rng.octet(),
        6 => octets.insert(place, rng.pick(&TELLING)),
        7 => octets.insert(place, rng.octet()),
        8 => drop(octets.remove(place)),
        9 => truncate_near_end(rng, octets),
        10 => move_a_piece(rng, octets),
        _ => {
            let more = rng.below(10);
            octets[place..].iter_mut().take(more).for_each(|octet| *octet = 0xff);
        }
    }
}

fn truncate_near_end(rng: &mut Rng, octets: &mut Vec<u8>) {
    let cut = rng.from_to(1, 4).min(octets.len());
    octets.truncate(octets.len() - cut);
}

/// Copies a piece of the octets to another place in them.
fn move_a_piece(rng: &mut Rng, octets: &mut Vec<u8>) {
    let start = rng.below(octets.len());
    let end = rng.from_to(start, octets.len().min(start + 40));
    let place = rng.below(octets.len() + 1);
    let piece = octets[start..end].to_vec();
    octets.splice(place..place, piece);
}

/// The front of one and the back of the other.
pub fn splice(rng: &mut Rng, one: &[u8], other: &[u8]) -> Vec<u8> {
    let mut octets = one[..rng.below(one.len() + 1)].to_vec();
    octets.extend(&other[rng.below(other.len() + 1)..]);
    octets
}
