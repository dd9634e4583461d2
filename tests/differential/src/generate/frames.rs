//! Cases for the frame reader and the frame writer.

use super::damage;
use crate::call::Call;
use crate::oracle::{FRAME_BUFFER_LIMIT, MESSAGE_LIMIT};
use crate::rng::Rng;

const SIZES: [usize; 10] = [0, 1, 11, 12, 250, 251, 252, 255, 256, 257];
const LARGE_SIZES: [usize; 6] = [65_534, 65_535, 65_536, 65_537, 65_544, 70_000];

pub fn random(rng: &mut Rng) -> Vec<Call> {
    match rng.below(40) {
        0 => vec![read(&around_the_limit(rng))],
        1 => write_calls(rng, true),
        2..=12 => write_calls(rng, false),
        _ => vec![read(&some_frame(rng))],
    }
}

pub fn read(buffer: &[u8]) -> Call {
    Call::FrameRead { buffer: buffer.into() }
}

/// A prefix that announces `size`, in any form that can hold it.
pub fn prefix(rng: &mut Rng, size: u64) -> Vec<u8> {
    let forms = [(252, 0, 0), (256, 0xfc, 1), (65_536, 0xfd, 2), (1 << 32, 0xfe, 4)];
    let mut fitting: Vec<(u8, usize)> = vec![(0xff, 8)];
    for (limit, marker, octets) in forms {
        if size < limit {
            fitting.push((marker, octets));
        }
    }
    let (marker, octets) = rng.pick(&fitting);
    if octets == 0 {
        return vec![size as u8];
    }
    let mut prefix = vec![marker];
    prefix.extend(&size.to_be_bytes()[8 - octets..]);
    prefix
}

/// The contents in a frame, in any form.
pub fn framed(rng: &mut Rng, contents: &[u8]) -> Vec<u8> {
    let mut frame = prefix(rng, contents.len() as u64);
    frame.extend(contents);
    frame
}

fn some_frame(rng: &mut Rng) -> Vec<u8> {
    let size = match rng.below(3) {
        0 => rng.pick(&SIZES),
        _ => rng.below(40),
    };
    let contents = rng.octets(size);
    let mut frame = framed(rng, &contents);
    match rng.below(8) {
        0..=2 => {
            let more = rng.below(20);
            frame.extend(rng.octets(more));
        }
        3..=4 => frame.truncate(rng.below(frame.len() + 1)),
        5 => {
            // One more is announced than is there.
            frame = prefix(rng, size as u64 + 1);
            frame.extend(contents);
        }
        6 => frame = huge(rng),
        _ => {}
    }
    if rng.chance(10) {
        damage::some(rng, &mut frame);
    }
    frame
}

/// A frame that announces a size around the limit or far beyond it, and has few octets.
fn huge(rng: &mut Rng) -> Vec<u8> {
    let size = rng.pick(&[65_535, 65_536, 65_537, 65_545, 1 << 31, u64::from(u32::MAX), 1 << 32, 1 << 63, u64::MAX - 8, u64::MAX]);
    let mut frame = prefix(rng, size);
    let more = rng.below(12);
    frame.extend(rng.octets(more));
    frame
}

/// Buffers around 65,545 octets, with a size that fits just so or not.
fn around_the_limit(rng: &mut Rng) -> Vec<u8> {
    let length = rng.from_to(FRAME_BUFFER_LIMIT - 12, FRAME_BUFFER_LIMIT + 3);
    let size = match rng.below(3) {
        0 => MESSAGE_LIMIT as u64,
        1 => rng.from_to(MESSAGE_LIMIT - 10, MESSAGE_LIMIT + 10) as u64,
        _ => rng.below(300) as u64,
    };
    let mut buffer = prefix(rng, size);
    let left = length - buffer.len();
    buffer.extend(rng.octets(left));
    buffer
}

fn write_calls(rng: &mut Rng, large: bool) -> Vec<Call> {
    let size = match (large, rng.chance(60)) {
        (true, _) => rng.pick(&LARGE_SIZES),
        (false, true) => rng.pick(&SIZES),
        (false, false) => rng.below(300),
    };
    let message = rng.octets(size);
    let whole = size + prefix_length(size);
    let rooms = [whole, whole - 1, size, size + 5, 0, whole + rng.below(50)];
    let mut calls = Vec::new();
    for _ in 0..3 {
        calls.push(Call::FrameWrite { message: message[..].into(), room: rng.pick(&rooms) });
    }
    calls
}

fn prefix_length(size: usize) -> usize {
    match size {
        0..=251 => 1,
        252..=255 => 2,
        256..=65_535 => 3,
        _ => 5,
    }
}
