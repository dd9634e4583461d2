//! A second implementation of the rules, written from the documents alone and for plainness, not for speed.

pub mod decimals;
pub mod frame;
pub mod lookup;
pub mod message;
pub mod natural;
pub mod qform;
pub mod real;
pub mod shorten;
pub mod show;
pub mod table;
pub mod tib;
pub mod tibmsg;
pub mod tibrv;
pub mod writer;

/// The most octets of a message, hproto, Tib or QForm.
pub const MESSAGE_LIMIT: usize = 65_536;
/// The most octets of the buffer that the frame reader takes.
pub const FRAME_BUFFER_LIMIT: usize = 65_545;
/// The depth of the deepest message; the outermost one has depth 1.
pub const DEPTH_LIMIT: u64 = 8;

pub const TOO_LONG: u64 = 1;
pub const TABLE: u64 = 2;
pub const CUT: u64 = 3;
pub const PAST_THE_END: u64 = 4;
pub const TOO_DEEP: u64 = 5;
pub const NUMBER_TOO_WIDE: u64 = 6;
pub const TEXT: u64 = 7;
pub const TAG_OR_KIND: u64 = 8;
pub const NO_ROOM: u64 = 9;
pub const STATE: u64 = 10;
pub const NOTHING_OPEN: u64 = 11;
pub const STILL_OPEN: u64 = 12;
pub const MAGIC: u64 = 13;
pub const SIZE: u64 = 14;
pub const NAME: u64 = 15;
pub const TYPE_SIZE_OR_HINT: u64 = 16;
pub const NOT_IN_FRACTIONS: u64 = 17;
pub const ABSENT: u64 = 18;
pub const NOT_IN_DICTIONARY: u64 = 19;
pub const REPEATED: u64 = 20;

/// A refusal: its number and the place of the fault.
#[derive(Clone, Copy, Debug, PartialEq, Eq)]
pub struct Refusal {
    pub number: u64,
    pub place: u64,
}

pub type Answer<T> = Result<T, Refusal>;

pub fn refuse<T>(number: u64, place: usize) -> Answer<T> {
    Err(Refusal { number, place: place as u64 })
}

/// At most eight octets as a big-endian number; no octets are 0.
pub fn big_endian(octets: &[u8]) -> u64 {
    assert!(octets.len() <= 8);
    octets.iter().fold(0, |sum, octet| sum * 256 + u64::from(*octet))
}
