//! The worked samples of the documents and the fixed limits. What they have to answer is written by hand in the tests; here they
//! are only inputs.

use super::{dictionaries, frames, hproto, qform, tib, writer};
use crate::call::Call;
use crate::oracle::message::read;
use crate::rng::Rng;
use std::sync::OnceLock;

pub enum Sample {
    Hproto { table: Vec<u8>, revision: u64, number: u64, message: Vec<u8> },
    FrameRead(Vec<u8>),
    FrameWrite(usize),
    Tibmsg(Vec<u8>),
    Tibrv(Vec<u8>),
    Qform { dictionary: Vec<u8>, message: Vec<u8> },
    Fractions { bits: u64, hinted: u64, hint: u64 },
    Decimals { bits: u64, hinted: u64, hint: u64 },
    Written { table: Vec<u8>, message: Vec<u8> },
    Show(Vec<u8>),
}

impl Sample {
    pub fn calls(&self, rng: &mut Rng) -> Vec<Call> {
        match self {
            Sample::Hproto { table, revision, number, message } => hproto::calls(rng, table, *revision, *number, message),
            Sample::FrameRead(buffer) => vec![frames::read(buffer)],
            Sample::FrameWrite(size) => write_calls(rng, *size),
            Sample::Tibmsg(message) => tib::tibmsg_calls(rng, message),
            Sample::Tibrv(message) => tib::tibrv_calls(rng, message),
            Sample::Qform { dictionary, message } => qform::calls(rng, dictionary, message),
            Sample::Fractions { bits, hinted, hint } => vec![Call::Fractions { bits: *bits, hinted: *hinted, hint: *hint }],
            Sample::Decimals { bits, hinted, hint } => vec![Call::Decimals { bits: *bits, hinted: *hinted, hint: *hint }],
            Sample::Written { table, message } => written_calls(rng, table, message),
            Sample::Show(input) => vec![Call::Show { input: input[..].into() }],
        }
    }
}

/// Runs that write a message of number 0, with all room up to more than enough.
fn written_calls(rng: &mut Rng, table: &[u8], message: &[u8]) -> Vec<Call> {
    let fields = read(table, 2, 0, message).expect("an accepted message");
    (0..=message.len() + 3).flat_map(|room| writer::whole(rng, table, 2, 0, &fields, room)).collect()
}

fn write_calls(rng: &mut Rng, size: usize) -> Vec<Call> {
    let message = rng.octets(size);
    let call = |more: usize| Call::FrameWrite { message: message[..].into(), room: size + more };
    (0..=6).map(call).collect()
}

pub fn all() -> &'static [Sample] {
    static ALL: OnceLock<Vec<Sample>> = OnceLock::new();
    ALL.get_or_init(|| {
        let mut samples = Vec::new();
        for (table, message) in HPROTO {
            samples.push(message_sample(&entries(table), 0, &octets(message)));
        }
        for (table, message) in SINGLES {
            samples.extend([1, 2].map(|revision| revision_sample(&entries(table), revision, 0, &octets(message))));
        }
        samples.extend(numbers_over_15());
        samples.extend(other_revisions());
        samples.extend(several_faults());
        samples.extend(table_limits());
        samples.extend(message_limits());
        samples.extend(FRAMES.iter().map(|frame| Sample::FrameRead(octets(frame))));
        samples.extend(frame_limits());
        samples.extend(TIBMSG.iter().map(|message| Sample::Tibmsg(octets(message))));
        samples.extend(TIBRV.iter().map(|message| Sample::Tibrv(octets(message))));
        samples.extend(depth_limits());
        for (dictionary, message) in QFORM {
            samples.push(Sample::Qform { dictionary: records(dictionary), message: octets(message) });
        }
        samples.extend(dictionary_limits());
        samples.extend(qform_limits());
        samples.extend(FRACTIONS.iter().map(fraction_sample));
        samples.extend(DECIMALS.iter().map(decimal_sample));
        for (table, message) in WRITTEN {
            samples.push(Sample::Written { table: entries(table), message: octets(message) });
        }
        samples.extend(SHOW.iter().map(|input| Sample::Show(octets(input))));
        samples
    })
}

/// Octets from hexadecimal digits; blanks are skipped.
pub fn octets(text: &str) -> Vec<u8> {
    let digits: Vec<u32> = text.chars().filter(|c| *c != ' ').map(|c| c.to_digit(16).expect("a digit")).collect();
    assert!(digits.len().is_multiple_of(2), "half an octet in {text}");
    digits.chunks(2).map(|pair| (pair[0] * 16 + pair[1]) as u8).collect()
}

/// Table octets from "message tag kind inner" or "message tag kind inner mark" entries, all hexadecimal, with commas between them. Those
/// with a mark have records of length 6.
pub fn entries(text: &str) -> Vec<u8> {
    let mut table = Vec::new();
    for entry in text.split(',').filter(|entry| !entry.trim().is_empty()) {
        let parts: Vec<u16> =
            entry.split_whitespace().map(|part| u16::from_str_radix(part, 16).expect("a hexadecimal number")).collect();
        let [message, tag, kind, inner, ref mark @ ..] = parts[..] else {
            panic!("at least four numbers in {entry}");
        };
        assert!(mark.len() <= 1, "at most five numbers in {entry}");
        table.extend([1, 0, 5 + mark.len() as u8, message as u8]);
        table.extend(tag.to_be_bytes());
        table.extend([kind as u8, inner as u8]);
        table.extend(mark.iter().map(|mark| *mark as u8));
    }
    table
}

/// Dictionary octets from "fid type size" records, all decimal, with commas between them.
pub fn records(text: &str) -> Vec<u8> {
    let mut dictionary = Vec::new();
    for record in text.split(',').filter(|record| !record.trim().is_empty()) {
        let parts: Vec<u16> = record.split_whitespace().map(|part| part.parse().expect("a number")).collect();
        let [fid, kind, size] = parts[..] else {
            panic!("three numbers in {record}");
        };
        dictionary.extend(dictionaries::record(fid, kind as u8, size));
    }
    dictionary
}

fn message_sample(table: &[u8], number: u64, message: &[u8]) -> Sample {
    revision_sample(table, 2, number, message)
}

fn revision_sample(table: &[u8], revision: u64, number: u64, message: &[u8]) -> Sample {
    Sample::Hproto { table: table.to_vec(), revision, number, message: message.to_vec() }
}

fn fraction_sample(sample: &(u64, u64, u64)) -> Sample {
    let (bits, hinted, hint) = *sample;
    Sample::Fractions { bits, hinted, hint }
}

fn decimal_sample(sample: &(u64, u64, u64)) -> Sample {
    let (bits, hinted, hint) = *sample;
    Sample::Decimals { bits, hinted, hint }
}

const SHOW_TABLE: &str = "0 1 1 0, 0 2 2 0, 0 23 5 1, 1 0 4 0, 1 1 1 0";
const PERSON: &str = "0 0 3 0, 0 1 3 0, 0 2 1 0";
const PERSON2: &str = "0 8 4 0, 0 23 4 0, 0 4567 1 0";
const VECTOR: &str = "0 0 2 0, 0 1 2 0, 0 2 2 0";
const NESTED: &str = "0 1 5 0";
const UINT: &str = "0 c 1 0";
const INT: &str = "0 c 2 0";

/// Tables and messages of number 0.
const HPROTO: &[(&str, &str)] = &[
    (UINT, ""),
    (UINT, "c0"),
    (UINT, "c1 00"),
    (UINT, "c1 03"),
    (UINT, "c2 01 23"),
    (UINT, "c1 05"),
    (UINT, "e1 0c 05"),
    (UINT, "f1 00 0c 05"),
    (UINT, "cc 01 06"),
    (UINT, "cd 00 01 05"),
    (UINT, "ce 00 00 00 01 06"),
    (UINT, "cf 00 00 00 00 00 00 00 01 06"),
    (UINT, "c9 00 00 00 00 00 00 00 00 00"),
    (UINT, "c3 01 02"),
    (UINT, "c0 f1"),
    (UINT, "cf ff ff ff ff ff ff ff f7"),
    (UINT, "c8 ff ff ff ff ff ff ff ff"),
    (INT, "c0"),
    (INT, "c1 80"),
    (INT, "c2 80 80"),
    (INT, "c2 00 80"),
    (INT, "c2 80 81"),
    (INT, "c2 80 00"),
    (INT, "c4 81 23 45 67"),
    (INT, "c3 80 aa aa"),
    (INT, "c1 81"),
    (INT, "c8 80 00 00 00 00 00 00 00"),
    (INT, "c8 ff ff ff ff ff ff ff ff"),
    (INT, "c8 7f ff ff ff ff ff ff ff"),
    (INT, "c3 80 00 00"),
    (INT, "c3 80 80 00"),
    ("0 c 3 0", "c5 48 65 6c 6c 6f"),
    ("0 1234 3 0", "fc 12 34 0c 48 65 6c 6c 6f 2c 20 77 6f 72 6c 64"),
    (VECTOR, "01 82 13 11 38 54 21 90"),
    (VECTOR, "01 4a 10 21 8b"),
    (PERSON, "04 4a 6f 68 6e 13 44 6f 65 22 07 c6"),
    (
        PERSON2,
        "88 47 c3 bc 6e 74 68 65 72 ea 23 42 72 75 6e 74 68 61 6c 65 72 fc 45 67 0e 07 ff ff ff ff ff ff ff ff ff ff ff ff ff",
    ),
    (
        "0 8 4 0, 0 23 4 0",
        "88 47 c3 bc 6e 74 68 65 72 ea 23 42 72 75 6e 74 68 61 6c 65 72 fc 45 67 0e 07 ff ff ff ff ff ff ff ff ff ff ff ff ff",
    ),
    ("0 1 1 0, 0 2 1 0, 0 3 1 0", "11 11 21 22 31 33 21 44 11 55 21 66"),
    ("0 9 1 0", "93 00 00 00"),
    ("0 1 5 1, 1 0 1 0", "1c 0c 08 00 00 00 00 00 00 00 2a 02 00 07"),
    (SHOW_TABLE, "11 2a 21 8b e6 23 02 4b 57 12 01 f4 30"),
    (NESTED, "10"),
    (NESTED, "12 00 f1"),
    (NESTED, "20 11 f1"),
    (NESTED, "16 15 14 13 12 11 10"),
    (NESTED, "17 16 15 14 13 12 11 10"),
    (NESTED, "18 17 16 15 14 13 12 11 10"),
    (NESTED, "17 16 15 14 13 12 11 11"),
    ("0 1 5 0, 0 2 1 0, 0 3 4 0", "12 31 ff 29"),
    ("0 1 5 7", "12 11 10"),
    ("0 d 1 0, 0 e 1 0", "d1 05 e1 0d 05 e1 0e 05 f1 00 0e 05"),
    ("0 0 3 0", "0b 00 01 02 03 04 05 06 07 08 09 0a"),
    ("0 0 3 0", "0c 0c 00 01 02 03 04 05 06 07 08 09 0a 0b"),
    ("0 0 3 0", "0c 0b 00 01 02 03 04 05 06 07 08 09 0a"),
];

const SINGLE: &str = "0 2 1 0 1";
/// Tag 1 is message 0 again and may come often; tag 2 is a single uint, tag 3 a single text, tag 4 a uint.
const SINGLES_INSIDE: &str = "0 1 5 0, 0 2 1 0 1, 0 3 4 0 1, 0 4 1 0 0";
/// Tag 1 is message 0 again, single; tag 2 is a uint.
const SINGLE_MESSAGE: &str = "0 1 5 0 1, 0 2 1 0";

/// Tables with single fields, and messages of number 0; each is read under either revision.
const SINGLES: &[(&str, &str)] = &[
    (SINGLE, "20"),
    (SINGLE, "20 20"),
    (SINGLE, "20 e0 02"),
    (SINGLE, "20 f0 00 02"),
    (SINGLE, "e0 02 20"),
    (SINGLE, "f0 00 02 e0 02"),
    (SINGLE, "2c 00 2f 00 00 00 00 00 00 00 00"),
    (SINGLE, "20 30 30 20"),
    ("0 2 1 0 0", "20 20"),
    ("0 2 1 0", "20 20"),
    // Nine octets, cut and past the end, before the repeat and as the repeat.
    (SINGLE, "20 29 00 00 00 00 00 00 00 00 00"),
    (SINGLE, "29 00 00 00 00 00 00 00 00 00 20"),
    (SINGLE, "20 21"),
    (SINGLE, "20 2c"),
    (SINGLE, "20 e1 02"),
    (SINGLE, "20 e0"),
    (SINGLE, "20 33 00 20"),
    (SINGLE, "20 20 33"),
    ("0 2 4 0 1", "20 21 ff"),
    ("0 2 4 0 1", "21 ff 20"),
    ("0 2 3 0 1", "22 00 ff 20"),
    // The same tag in messages around and beside each other.
    (SINGLES_INSIDE, "11 20 11 20 20"),
    (SINGLES_INSIDE, "20 11 20 11 20"),
    (SINGLES_INSIDE, "20 12 20 20"),
    (SINGLES_INSIDE, "12 20 30 20 30"),
    (SINGLES_INSIDE, "12 20 30 20 30 30"),
    (SINGLES_INSIDE, "13 11 20 20 20"),
    (SINGLES_INSIDE, "40 40 10 10 40"),
    // A message that is single itself.
    (SINGLE_MESSAGE, "10 10"),
    (SINGLE_MESSAGE, "10 11 f1"),
    (SINGLE_MESSAGE, "11 f1 10"),
    (SINGLE_MESSAGE, "11 10 20 20"),
    (SINGLE_MESSAGE, "12 10 10"),
    (SINGLE_MESSAGE, "10 f1 00 01 10"),
    // Eight deep a repeat of a leaf is 20; a message there is too deep before it can be a repeat.
    (SINGLES_INSIDE, "18 17 16 15 14 13 12 20 20"),
    (SINGLES_INSIDE, "19 18 17 16 15 14 13 20 e0 02"),
    (SINGLES_INSIDE, "18 17 16 15 14 13 12 10 10"),
    (SINGLES_INSIDE, "19 18 17 16 15 14 13 20 10 20"),
    (SINGLE_MESSAGE, "18 17 16 15 14 13 12 10 10"),
    (SINGLE_MESSAGE, "17 16 15 14 13 12 11 10 10"),
    (SINGLE_MESSAGE, "16 15 14 13 12 11 10 10"),
    // Two message numbers, of which one has the tag single.
    ("0 1 5 1, 0 2 1 0, 1 2 1 0 1", "20 20 11 20"),
    ("0 1 5 1, 0 2 1 0, 1 2 1 0 1", "20 20 12 20 20"),
    ("0 1 5 1, 0 2 1 0 1, 1 2 1 0 0", "20 12 20 20"),
    ("0 d 1 0 1, 0 e 1 0 1, 0 ff 3 0 1, 0 100 3 0 1, 0 ffff 3 0 1", "d0 e0 0e e0 ff f0 01 00 f0 ff ff d0"),
    ("0 d 1 0 1, 0 e 1 0 1, 0 ff 3 0 1, 0 100 3 0 1, 0 ffff 3 0 1", "d0 e0 0e e0 ff f0 01 00 f0 ff ff f0 00 ff"),
];

/// Tables and messages in shortest form without raw fields, which can be written.
pub const WRITTEN: &[(&str, &str)] = &[
    (UINT, "c1 03"),
    (UINT, "c2 01 23"),
    (UINT, "c0"),
    (INT, "c4 81 23 45 67"),
    (INT, "c3 80 aa aa"),
    (INT, "c1 80"),
    (INT, "c1 81"),
    ("0 c 3 0", "c5 48 65 6c 6c 6f"),
    ("0 1234 3 0", "fc 12 34 0c 48 65 6c 6c 6f 2c 20 77 6f 72 6c 64"),
    (VECTOR, "01 82 13 11 38 54 21 90"),
    (PERSON, "04 4a 6f 68 6e 13 44 6f 65 22 07 c6"),
    ("0 8 4 0, 0 23 4 0", "88 47 c3 bc 6e 74 68 65 72 ea 23 42 72 75 6e 74 68 61 6c 65 72"),
    ("0 1 1 0, 0 2 1 0, 0 3 1 0", "11 11 21 22 31 33 21 44 11 55 21 66"),
    ("0 1 5 1, 1 0 1 0", "14 01 2a 01 07"),
    (SHOW_TABLE, "11 2a 21 8b e6 23 02 4b 57 12 01 f4"),
    (NESTED, "16 15 14 13 12 11 10"),
];

const FRAMES: &[&str] = &[
    "",
    "00",
    "02 c1 42",
    "02 c1",
    "fc",
    "fc 00",
    "fd 00",
    "fd 00 01 07",
    "fe 00 01 00",
    "fe 00 01 00 01",
    "fe 00 01 00 00",
    "ff 00 00 00 00 00 00 00 02 c1 42 99",
    "ff ff ff ff ff ff ff ff ff",
    "ff ff ff ff ff ff ff ff f7",
    "ff ff ff ff ff ff ff ff",
];

const TIBMSG: &[&str] = &[
    "",
    "ce 13 aa 1f 01 00 00 00 00",
    "ce 13 aa 1f 01 00 00 00",
    "ce 13 aa 1f 02 00 00 00 00",
    "ce 13 aa 1f 01 00 00 00 01",
    "ce 13 aa 1f 01 00 00 00 0b 04 6e 61 6d 00 05 04 12 34 56 78",
    "ce 13 aa 1f 01 00 00 00 1e 0b 48 53 54 43 4c 53 44 41 54 45 00 42 0c 32 35 20 41 50 52 20 31 39 39 34 00 06 02 01 02",
    "ce 13 aa 1f 01 00 00 00 11 08 52 4f 57 36 34 5f 34 00 49 04 41 41 55 55 06 3c",
    "ce 13 aa 1f 01 00 00 00 11 06 41 52 52 41 59 00 48 06 00 01 00 02 00 03 05 02",
    "ce 13 aa 1f 01 00 00 00 17 09 54 52 44 50 52 43 5f 31 00 47 08 3f f2 00 00 00 00 00 00 06 01 13",
    "ce 13 aa 1f 01 00 00 00 04 05 41 00 41",
    "ce 13 aa 1f 01 00 00 00 06 05 41 00 41 41 00",
    "ce 13 aa 1f 01 00 00 00 03 00 08 00",
    "ce 13 aa 1f 01 00 00 00 02 00 08",
    "ce 13 aa 1f 01 00 00 00 04 00 40 00 07",
    "ce 13 aa 1f 01 00 00 00 05 00 40 00 46 01",
    "ce 13 aa 1f 01 00 00 00 05 00 48 00 04 08",
    "ce 13 aa 1f 01 00 00 00 07 00 07 04 7f 80 00 01",
    "ce 13 aa 1f 01 00 00 00 07 00 07 04 00 00 00 01",
    "ce 13 aa 1f 01 00 00 00 03 00 05 03",
    "ce 13 aa 1f 01 00 00 00 03 00 05 04",
    "ce 13 aa 1f 01 00 00 00 06 00 82 ff ff ff ff",
    "ce 13 aa 1f 01 00 00 00 06 00 82 80 00 00 00",
    "ce 13 aa 1f 01 00 00 00 08 00 c8 ff ff ff f8 05 08",
    "ce 13 aa 1f 01 00 00 00 08 00 82 ff ff ff fe 05 08",
];

const TIBRV: &[&str] = &[
    "",
    "00 00 00 08 99 55 ee aa",
    "00 00 00 09 99 55 ee aa",
    "00 00 00 09 99 55 ee ab",
    "00 00 00 08 99 55 ee",
    "00 00 00 13 99 55 ee aa 04 6e 61 6d 00 0c 05 12 34 56 78",
    "00 00 00 27 99 55 ee aa 05 64 61 74 61 00 01 7a 00 00 00 17 99 55 ee aa 06 66 69 65 6c 64 00 08 07 76 61 6c 75 65 00",
    "00 00 00 1f 99 55 ee aa 05 64 61 74 61 00 01 7a 00 00 00 17 99 55 ee aa 06 66 69 65 6c 64 00 08 07 76 61 6c 75 65 00",
    "00 00 00 32 99 55 ee aa 07 5f 64 61 74 61 5f 00 07 21 ce 13 aa 1f 01 00 00 00 17 09 54 52 44 50 52 43 5f 31 00 47 08 3f f2 00 00 00 00 00 00 06 01 13",
    "00 00 00 0b 99 55 ee aa 00 01 79",
    "00 00 00 0d 99 55 ee aa 00 01 79 00 02",
    "00 00 00 0b 99 55 ee aa 00 07 7b",
    "00 00 00 0b 99 55 ee aa 00 07 00",
    "00 00 00 0b 99 55 ee aa 00 07 01",
    "00 00 00 0f 99 55 ee aa 00 01 7a 00 00 00 04",
    "00 00 00 13 99 55 ee aa 00 01 7a 00 00 00 08 99 55 ee ab",
    "00 00 00 0a 99 55 ee aa 00 01",
    "00 00 00 0f 99 55 ee aa 00 07 7a ff ff ff ff",
    "00 00 00 0f 99 55 ee aa 00 07 7a 80 00 00 04",
    "00 00 00 13 99 55 ee aa 00 01 7a ff ff ff ff 99 55 ee aa",
    "00 00 00 13 99 55 ee aa 00 01 7a 80 00 00 08 99 55 ee aa",
    "00 00 00 14 99 55 ee aa 00 01 7a 00 00 00 08 99 55 ee aa 00",
];

/// Dictionary for the first listing of document 004, and for its message with an example of each type.
pub const LISTING_DICTIONARY: &str = "4001 9 2, 4002 9 2, 4003 9 2, 4005 9 2";
pub const LISTING: &str = "11 11 11 12 00 00 00 10 cf a1 00 01 cf a2 8b 4f cf a3 00 00 cf a5 00 00";
pub const TYPES_DICTIONARY: &str = "2705 2 20, 10701 1 4, 10703 2 4, 10704 17 6, 10716 16 12, 10730 14 8, 10720 15 9, 10728 14 8";
pub const TYPES: &str = "11 11 11 12 00 00 00 58 \
    ca 91 41 42 43 2e 4e 00 00 00 00 00 00 00 00 00 00 00 00 00 00 00 \
    e9 cd 00 00 00 40 \
    e9 cf 4e 59 53 00 \
    e9 d0 31 39 3a 33 33 00 \
    e9 dc 31 38 20 4f 43 54 20 32 30 31 31 00 \
    e9 ea 40 8f 40 00 00 00 00 00 \
    e9 e0 3f f2 00 00 00 00 00 00 13 00 \
    e9 e8 40 24 00 00 00 00 00 00";
/// Two fids, one of odd size.
const TRAPS: &str = "1 2 3, 2 1 4";

/// Dictionaries and messages of QForm.
const QFORM: &[(&str, &str)] = &[
    (LISTING_DICTIONARY, LISTING),
    (TYPES_DICTIONARY, TYPES),
    ("", LISTING),
    ("4001 9 2, 4002 9 2, 4005 9 2", LISTING),
    ("4001 9 2, 4002 9 2, 4003 9 2, 4005 9 3", LISTING),
    ("", ""),
    ("", "11 11 11 12 00 00 00 00"),
    ("", "11 11 11 12 00 00 00"),
    ("", "11 11 11 13 00 00 00 00"),
    ("", "11 11 11 13 00 00 00"),
    ("", "11 11 11 12 00 00 00 01"),
    ("", "11 11 11 13 00 00 00 01"),
    ("", "11 11 11 12 00 00 00 08"),
    ("", "11 11 11 12 00 00 00 00 00"),
    ("", "11 11 11 12 ff ff ff f8"),
    ("", "11 11 11 12 80 00 00 00"),
    ("", "12 11 11 11 00 00 00 00"),
    (TRAPS, "11 11 11 12 00 00 00 05 c0 01 aa bb cc"),
    (TRAPS, "11 11 11 12 00 00 00 06 c0 01 aa bb cc 00"),
    (TRAPS, "11 11 11 12 00 00 00 06 c0 01 aa bb cc dd"),
    (TRAPS, "11 11 11 12 00 00 00 06 80 01 aa bb cc 00"),
    (TRAPS, "11 11 11 12 00 00 00 06 40 01 aa bb cc 00"),
    (TRAPS, "11 11 11 12 00 00 00 06 00 01 aa bb cc 00"),
    (TRAPS, "11 11 11 12 00 00 00 02 80 01"),
    (TRAPS, "11 11 11 12 00 00 00 02 80 03"),
    (TRAPS, "11 11 11 12 00 00 00 02 c0 03"),
    (TRAPS, "11 11 11 12 00 00 00 02 c0 01"),
    (TRAPS, "11 11 11 12 00 00 00 01 c0"),
    (TRAPS, "11 11 11 12 00 00 00 01 80"),
    (TRAPS, "11 11 11 12 00 00 00 07 c0 01 aa bb cc dd c0"),
    (TRAPS, "11 11 11 12 00 00 00 08 c0 01 aa bb cc dd c0 03"),
    (TRAPS, "11 11 11 12 00 00 00 0c c0 01 aa bb cc c0 c0 02 01 02 03 04"),
    (TRAPS, "11 11 11 12 00 00 00 0c c0 02 01 02 03 04 c0 01 aa bb cc 02"),
    (TRAPS, "11 11 11 12 00 00 00 0b c0 02 01 02 03 04 c0 01 aa bb cc"),
    (TRAPS, "11 11 11 12 00 00 00 0b c0 01 aa bb cc dd c0 02 01 02 03"),
    ("0 0 0, 16383 21 0", "11 11 11 12 00 00 00 06 ff ff c0 00 ff ff"),
    ("16383 2 65535", "11 11 11 12 00 00 00 04 ff ff 00 00"),
    ("0 2 65534", "11 11 11 12 00 00 00 04 c0 00 00 00"),
    ("7 15 9", "11 11 11 12 00 00 00 0c c0 07 3f f2 00 00 00 00 00 00 13 00"),
    ("7 15 9", "11 11 11 12 00 00 00 0b c0 07 3f f2 00 00 00 00 00 00 13"),
];

const FRACTIONS: &[(u64, u64, u64)] = &[
    (0x400a_0000_0000_0000, 1, 2),
    (0x400a_0000_0000_0000, 1, 1),
    (0x400a_0000_0000_0000, 0, 2),
    (0x400a_0000_0000_0000, 1, 0),
    (0x400a_0000_0000_0000, 1, 9),
    (0x8000_0000_0000_0000, 1, 8),
    (0x4330_0000_0000_0000, 1, 1),
    (0x432f_ffff_ffff_ffff, 1, 1),
    (0xc32f_ffff_ffff_ffff, 1, 1),
    (0x7ff0_0000_0000_0000, 1, 1),
    (0x7ff8_0000_0000_0000, 1, 1),
    (0x0000_0000_0000_0001, 1, 8),
];

const DECIMALS: &[(u64, u64, u64)] = &[
    (0x3ff2_0000_0000_0000, 1, 19), // 1.125
    (0x3ff2_0000_0000_0000, 1, 18),
    (0xbff2_0000_0000_0000, 1, 18),
    (0x3ff2_0000_0000_0000, 0, 19),
    (0x3ff2_0000_0000_0000, 1, (1 << 32) + 17),
    (0x4005_6666_6666_6666, 1, 18), // 2.675
    (0xc005_6666_6666_6666, 1, 18),
    (0x3fd6_6666_6666_6666, 1, 17), // 0.35
    (0x3fdc_cccc_cccc_cccd, 1, 17), // 0.45
    (0x3fb9_9999_a000_0000, 1, 25), // 3dcccccd in four octets
    (0x430a_36e2_eb1c_432c, 1, 20), // the largest that is accepted with this hint
    (0x430a_36e2_eb1c_432d, 1, 20),
    (0xc30a_36e2_eb1c_432c, 1, 20),
    (0xc30a_36e2_eb1c_432d, 1, 20),
    (0x42a0_c6f7_a0b5_ed8d, 1, 22), // the largest answer of all hints
    (0xc2a0_c6f7_a0b5_ed8d, 1, 22),
    (0x0000_0000_0000_0000, 1, 17),
    (0x8000_0000_0000_0000, 1, 17),
    (0x8000_0000_0000_0000, 1, 25),
    (0x0000_0000_0000_0001, 1, 25),
    (0x8000_0000_0000_0001, 1, 25),
    (0x000f_ffff_ffff_ffff, 1, 25),
    (0x800f_ffff_ffff_ffff, 1, 25),
    (0xbe00_0000_0000_0000, 1, 25), // -2^-31
    (0x7fef_ffff_ffff_ffff, 1, 17),
    (0x7ff0_0000_0000_0000, 1, 17),
    (0xfff0_0000_0000_0000, 1, 25),
    (0x7ff0_0000_0000_0001, 1, 17),
    (0x7ff8_0000_0000_0000, 1, 17),
];

const SHOW: &[&str] = &[
    "28 0100050000010100 0100050000020200 0100050000230501 0100050100000400 0100050100010100 0d 11 2a 21 8b e6 23 02 4b 57 12 01 f4 30",
    "",
    "00",
    "00 00",
    "00 01 c3 00",
    "00 02 c3",
    "00 01 c3",
    "00 0a c9 00 00 00 00 00 00 00 00 00",
    "08 0100050000010500 01 10",
    "08 0100050000010600 01 10",
    "07 01000500000105 01",
    "fc",
    "00 fd 00",
    "08 0100050000010500 08 17 16 15 14 13 12 11 10",
    "08 0100050000010400 02 11 80",
    "fe 00 01 00 01",
    "08 01 00 05 00 00 0c 01 00 0a c9 00 00 00 00 00 00 00 00 00",
    "09 010006000002010001 01 20",
    "09 010006000002010001 03 20 e0 02",
    "09 010006000002010000 03 20 e0 02",
    "09 010006000002010002 03 20 e0 02",
    "08 0100060000020100 01 20",
    "08 0100050000020181 01 20",
    "11 0100050000010500 010006000002010001 05 11 20 11 20 20",
];

fn numbers_over_15() -> Vec<Sample> {
    let numbers = [15, 16, 255, 256, 1 << 32, u64::MAX];
    numbers.iter().map(|number| message_sample(&entries(UINT), *number, &[0xc0])).collect()
}

fn other_revisions() -> Vec<Sample> {
    let sample = |revision: &u64| revision_sample(&entries(SINGLE), *revision, 0, &[0x20, 0x20]);
    let mut samples: Vec<Sample> = hproto::BAD_REVISIONS.iter().map(sample).collect();
    let bad_table = octets("01 00 05 00 00 01 01 00 ff");
    let long = vec![0xf1; 65_537];
    samples.push(revision_sample(&bad_table, 257, 0, &long));
    samples.push(revision_sample(&bad_table, 257, 0, &[0xf1]));
    samples.push(revision_sample(&[], 257, 0, &long));
    samples.push(revision_sample(&[], 257, 0, &[0xf1]));
    samples.push(revision_sample(&[], 257, 16, &[0xf1]));
    samples.push(revision_sample(&[], 257, 0, &[]));
    samples
}

/// A faulty table, a message that is too long, a number over 15 and a faulty field, each with and without the ones before it.
fn several_faults() -> Vec<Sample> {
    let bad_table = octets("01 00 05 00 00 01 01 00 ff");
    let long = vec![0xf1; 65_537];
    vec![
        message_sample(&bad_table, 16, &long),
        message_sample(&bad_table, 0, &long),
        message_sample(&bad_table, 16, &[0xf1]),
        message_sample(&bad_table, 0, &[]),
        message_sample(&[], 16, &long),
        message_sample(&[], 0, &long),
        message_sample(&[], 16, &[0xf1]),
        message_sample(&[], 0, &[0xf1]),
    ]
}

/// Tables of 63, 64 and 65 records of length 5, of length 6 and of both in turn, with octets behind them; pairs that come again; marks
/// and inner numbers that are none.
fn table_limits() -> Vec<Sample> {
    let record = |index: u8, marked: bool| {
        [&[1, 0, 5 + u8::from(marked), index % 16, 0, index / 16, 1, 0][..], &[1][..usize::from(marked)]].concat()
    };
    let records =
        |count: u8, marked: fn(u8) -> bool| -> Vec<u8> { (0..count).flat_map(|index| record(index, marked(index))).collect() };
    let mut tables = Vec::new();
    for marked in [|_| false, |_| true, |index| index % 2 == 0] {
        tables.extend([63, 64, 65].map(|count| records(count, marked)));
        tables.push([&records(64, marked)[..], &[1]].concat());
        tables.push(records(255, marked).repeat(50));
    }
    tables.extend(TABLES.iter().map(|table| octets(table)));
    tables.iter().map(|table| message_sample(table, 0, &[0x01, 0x05, 0x01, 0x05])).collect()
}

const TABLES: &[&str] = &[
    "01",
    "01 00 05 00 00",
    // A B B A, and the same with records of both lengths.
    "0100050000010100 0100050000020100 0100050000020100 0100050000010100",
    "010006000001010001 0100050000020100 010006000002010000 0100050000010100",
    // A record of length 6 that is cut, and one of length 5 with an octet behind it.
    "01000600000101",
    "0100060000010100",
    "0100050000010100 01",
    // Marks: good ones, and others.
    "010006000001010000",
    "010006000001010001",
    "010006000001010002",
    "010006000001010080",
    "010006000001010081",
    "0100060000010100ff",
    "0100050000010100 010006000002010002 0100050000020100",
    // Inner numbers with a bit more, with and without a mark.
    "0100050000010101",
    "0100050000010180",
    "0100050000010181",
    "0100050000010581",
    "010006000001058101",
    "010006000001010101",
    "010006000001010100",
    // Lengths.
    "01000400000101",
    "01000700000101000100",
    "0101060000010100 01",
    "0106000000010100 01",
];

/// Messages around the limits of length: many fields of no contents, one large field, and one inside another.
fn message_limits() -> Vec<Sample> {
    let mut messages = vec![vec![0; 65_536], vec![0; 65_537]];
    for length in [255, 256, 65_529, 65_530, 65_531, 65_532] {
        messages.push(large_field(0x20, length));
        messages.push(large_field(0x10, length));
    }
    for length in [255u16, 256, 65_532, 65_533, 65_534] {
        let front = [&[0x2d][..], &length.to_be_bytes()].concat();
        messages.push([front, vec![0; length.into()]].concat());
    }
    let inner = large_field(0x20, 65_526 - 12);
    messages.push([large_field_with(0x10, &inner), vec![0x20]].concat());
    // One inside another, as large as may be: short, and with an octet in the inner length that is not needed.
    messages.push([&[0x1d, 0xff, 0xfd, 0x2d, 0xff, 0xfa][..], &vec![7; 65_530]].concat());
    messages.push([&[0x1d, 0xff, 0xfd, 0x2e, 0, 0, 0xff, 0xf8][..], &vec![7; 65_528]].concat());
    messages.iter().map(|message| message_sample(&entries(NESTED), 0, message)).collect()
}

fn large_field(tag: u8, length: usize) -> Vec<u8> {
    large_field_with(tag, &vec![0; length])
}

fn large_field_with(tag: u8, contents: &[u8]) -> Vec<u8> {
    let mut octets = vec![tag | 0xe];
    octets.extend((contents.len() as u32).to_be_bytes());
    octets.extend(contents);
    octets
}

/// Dictionaries of 511, 512 and 513 records, with octets behind them, and with faults that two rules refuse.
fn dictionary_limits() -> Vec<Sample> {
    let full = dictionaries::full();
    let more = |record: &[u8]| [&full[..], record].concat();
    let dictionaries = [
        full[..full.len() - 8].to_vec(),
        full.clone(),
        more(&[2]),
        more(&[0xff]),
        more(&dictionaries::record(1, 2, 4)),
        more(&dictionaries::record(0, 2, 4)),
        full.repeat(8),
        records("1 2 3, 2 1 4, 2 1 4, 1 2 3"),
        records("1 2 3, 16384 1 4, 16384 1 4"),
        records("5 15 8, 5 15 9"),
        records("5 22 9, 16384 1 4"),
        octets("01 00 05 00 00 01 01 00"),
        octets("02 00 06 00 01 01 00 04 00"),
    ];
    let message = octets("11 11 11 12 00 00 00 02 c0 00");
    dictionaries.into_iter().map(|dictionary| Sample::Qform { dictionary, message: message.clone() }).collect()
}

/// Messages around the limit of length, with good and with bad dictionaries; and dictionary and message in one buffer.
fn qform_limits() -> Vec<Sample> {
    let full_of = |length: usize| -> Vec<u8> { std::iter::repeat_n([0xc0, 7], length / 2).flatten().collect() };
    let mut messages = vec![full_of(65_528), full_of(65_526), [full_of(65_528), vec![0xc0]].concat(), full_of(65_530)];
    for size in [65_525u16, 65_526, 65_527, 65_528, 65_534, 65_535] {
        for length in [65_524, 65_525, 65_526, 65_527, 65_528, 65_534, 65_535, 65_536] {
            messages.push([&[0xc0, 9][..], &size.to_be_bytes(), &vec![0xc0; length - 2]].concat());
        }
    }
    let mut samples = Vec::new();
    for body in messages {
        let size = u16::from_be_bytes([body[2], body[3]]);
        let dictionary = [dictionaries::record(7, 0, 0), dictionaries::record(9, 2, size)].concat();
        let message = qform::message(&body);
        let bad = [&dictionary[..], &[2]].concat();
        samples.push(Sample::Qform { dictionary: bad, message: message.clone() });
        samples.push(Sample::Qform { dictionary, message });
    }
    for both in [octets("02 00 05 00 01 02 00 04"), octets("11 11 11 12 00 00 00 00")] {
        samples.push(Sample::Qform { dictionary: both.clone(), message: both });
    }
    samples
}

fn frame_limits() -> Vec<Sample> {
    let whole = |length: usize| {
        let mut buffer = octets("ff 00 00 00 00 00 01 00 00");
        buffer.resize(length, 7);
        Sample::FrameRead(buffer)
    };
    let mut samples: Vec<Sample> = (65_543..=65_547).map(whole).collect();
    let sizes = [0, 251, 252, 255, 256, 65_535, 65_536, 65_537];
    samples.extend(sizes.map(Sample::FrameWrite));
    samples
}

/// TibrvMsg messages inside each other, 7 to 10 deep, the innermost empty, cut or with a bad magic number.
fn depth_limits() -> Vec<Sample> {
    let mut samples = Vec::new();
    for depth in 7..=10 {
        for innermost in ["00 00 00 08 99 55 ee aa", "00 00 00 05 99", "00 00 00 08 99 55 ee ab"] {
            let mut message = octets(innermost);
            for _ in 1..depth {
                message = around(&message);
            }
            samples.push(Sample::Tibrv(message));
        }
    }
    samples
}

fn around(message: &[u8]) -> Vec<u8> {
    let mut outer = (message.len() as u32 + 11).to_be_bytes().to_vec();
    outer.extend(octets("99 55 ee aa 00 01 7a"));
    outer.extend(message);
    outer
}
