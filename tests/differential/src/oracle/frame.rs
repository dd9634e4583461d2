//! The frame reader and the frame writer.

use super::{big_endian, refuse, Answer, CUT, FRAME_BUFFER_LIMIT, MESSAGE_LIMIT, NO_ROOM, PAST_THE_END, TOO_LONG};

/// Where the message of the frame at the front starts and ends.
pub fn read(buffer: &[u8]) -> Answer<(usize, usize)> {
    if buffer.len() > FRAME_BUFFER_LIMIT {
        return refuse(TOO_LONG, 0);
    }
    let Some((size, start)) = prefix(buffer) else {
        return refuse(CUT, 0);
    };
    if size > MESSAGE_LIMIT as u64 {
        return refuse(TOO_LONG, 0);
    }
    if size > (buffer.len() - start) as u64 {
        return refuse(PAST_THE_END, 0);
    }
    Ok((start, start + size as usize))
}

/// The size that the prefix announces and the octets that the prefix takes, or none if the buffer ends inside it.
fn prefix(buffer: &[u8]) -> Option<(u64, usize)> {
    let first = *buffer.first()?;
    let octets = match first {
        0x00..=0xfb => return Some((u64::from(first), 1)),
        0xfc => 1,
        0xfd => 2,
        0xfe => 4,
        0xff => 8,
    };
    Some((big_endian(buffer.get(1..1 + octets)?), 1 + octets))
}

/// The frame of a message, if it fits into `room` octets.
pub fn write(message: &[u8], room: usize) -> Answer<Vec<u8>> {
    if message.len() > MESSAGE_LIMIT {
        return refuse(TOO_LONG, 0);
    }
    let mut frame = shortest_prefix(message.len());
    frame.extend(message);
    if frame.len() > room {
        return refuse(NO_ROOM, 0);
    }
    Ok(frame)
}

fn shortest_prefix(size: usize) -> Vec<u8> {
    match size {
        0..=251 => vec![size as u8],
        252..=255 => vec![0xfc, size as u8],
        256..=65_535 => vec![0xfd, (size >> 8) as u8, size as u8],
        _ => vec![0xfe, (size >> 24) as u8, (size >> 16) as u8, (size >> 8) as u8, size as u8],
    }
}
