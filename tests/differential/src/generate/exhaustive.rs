//! Small inputs in full: every one of a family is a case of its own, whatever the seed.

use super::samples::records;
use super::samples::{entries, octets};
use super::{decimals, dictionaries, forms, qform, repeats, short_texts, writer_limits, writer_states};
use crate::call::{Call, Hproto, Qform};
use std::sync::OnceLock;

const TWO_OCTETS: u64 = 65_536;
const TEXT_LIMITS: u64 = short_texts::LIMITS.len() as u64;
const TEXTS: u64 = TEXT_LIMITS.pow(4);

type Family = (u64, fn(u64) -> Vec<Call>);

const FAMILIES: [Family; 41] = [
    (1 + 256 + TWO_OCTETS, short_message),
    (repeats::FORM_PAIRS, repeated),
    (repeats::ORDERS, repeated_by_order),
    (TWO_OCTETS, signed_number),
    (forms::ALL_BUT_ONE, all_but_one),
    (forms::NUMBERS, number_at_limits),
    (forms::CONTROLS, control_at_limits),
    (TEXTS, text),
    (TWO_OCTETS, tibmsg_type_and_size),
    (3 * TWO_OCTETS, tibmsg_hint),
    (TWO_OCTETS, tibrv_type_and_size),
    (43 * 256, changed_table),
    (13 * 256, changed_message),
    (12 * 256, changed_frame),
    (39 * 256, changed_tibmsg),
    (39 * 256, changed_tibrv),
    (TWO_OCTETS, qform_fid),
    (TWO_OCTETS, dictionary_fid),
    (TWO_OCTETS, dictionary_type_and_size),
    (dictionaries::FAULTS_AT, dictionary_fault),
    (qform::CUTS, cut_qform),
    (24 * 256, changed_dictionary),
    (26 * 256, changed_qform),
    (decimals::EXPONENTS, decimals::exponent_calls),
    (decimals::TIES, decimals::tie_calls),
    (decimals::ALMOST, decimals::almost_tie_calls),
    (decimals::ENDS, decimals::end_calls),
    (decimals::HINTS, decimals::hint_calls),
    (writer_limits::PUT_NUMBERS, writer_limits::put_number),
    (writer_limits::PUT_OCTETS, writer_limits::put_octets),
    (writer_limits::EVERY_LENGTH, writer_limits::every_length),
    (writer_limits::CLOSES, writer_limits::close),
    (writer_limits::EVERY_TAG, writer_limits::every_tag),
    (writer_limits::MASKS, writer_limits::mask),
    (writer_limits::NUMBERS, writer_limits::message_number),
    (writer_limits::TABLE_FAULTS, writer_limits::table_fault),
    (writer_limits::STARTS, writer_limits::start),
    (writer_limits::TOGETHER, writer_limits::together),
    (writer_states::WORDS, writer_states::changed_word),
    (writer_states::ARRAY_LENGTHS, writer_states::array_length),
    (writer_states::OTHER_BUFFERS, writer_states::other_buffer),
];

/// How many cases there are.
pub fn count() -> u64 {
    FAMILIES.iter().map(|family| family.0).sum()
}

/// The calls of the case with this number, if there is one.
pub fn case(mut number: u64) -> Option<Vec<Call>> {
    for (count, make) in FAMILIES {
        if number < count {
            return Some(make(number));
        }
        number -= count;
    }
    None
}

/// A table with every kind at message 0, some single, in records of both lengths.
fn table() -> &'static [u8] {
    static TABLE: OnceLock<Vec<u8>> = OnceLock::new();
    TABLE.get_or_init(|| {
        entries("0 0 1 0 1, 0 1 2 0, 0 2 3 0 0, 0 3 4 0, 0 4 5 0 1, 0 5 5 1 0, 0 d 1 0, 0 e 2 0 1, 0 ff 4 0 1, 1 0 1 0, 1 1 2 0 1")
    })
}

fn check_and_shorten(message: &[u8]) -> Vec<Call> {
    check_and_shorten_under(table(), message)
}

fn check_and_shorten_under(table: &[u8], message: &[u8]) -> Vec<Call> {
    check_and_shorten_on(Hproto { table: table.into(), revision: 2, number: 0, message: message.into() })
}

fn check_and_shorten_on(on: Hproto) -> Vec<Call> {
    let room = on.message.len();
    vec![Call::Check(on.clone()), Call::Shorten { on, room }]
}

/// All messages of up to two octets.
fn short_message(number: u64) -> Vec<Call> {
    match number {
        0 => check_and_shorten(&[]),
        1..=256 => check_and_shorten(&[(number - 1) as u8]),
        _ => check_and_shorten(&pair(number - 257)),
    }
}

/// Two fields of one tag in each form.
fn repeated(number: u64) -> Vec<Call> {
    let (table, revision, message) = repeats::form_pair(number);
    check_and_shorten_on(Hproto { table: table.into(), revision, number: 0, message: message.into() })
}

/// The single fields of a full table.
fn repeated_by_order(number: u64) -> Vec<Call> {
    let (table, message) = repeats::order_case(number);
    check_and_shorten_under(&table, &message)
}

/// All ints of two octets.
fn signed_number(number: u64) -> Vec<Call> {
    let [first, second] = pair(number);
    let message = [0x12, first, second];
    let mut calls = check_and_shorten(&message);
    let on = Hproto { table: table().into(), revision: 2, number: 0, message: message[..].into() };
    calls.push(Call::Lookup { on, tag: 1, k: 0 });
    calls
}

/// Messages that are short but for one control part or one number.
fn all_but_one(number: u64) -> Vec<Call> {
    check_and_shorten_under(forms::table(), &forms::all_but_one(number))
}

fn number_at_limits(number: u64) -> Vec<Call> {
    check_and_shorten_under(forms::table(), &forms::number_at_limits(number))
}

fn control_at_limits(number: u64) -> Vec<Call> {
    let (table, message) = forms::control_at_limits(number);
    check_and_shorten_under(&table, &message)
}

/// Texts of four octets at the limits of what text allows. All shorter ones are in `short_texts`, for the check alone.
fn text(mut number: u64) -> Vec<Call> {
    let mut message = vec![0x34];
    for _ in 0..4 {
        message.push(short_texts::LIMITS[(number % TEXT_LIMITS) as usize]);
        number /= TEXT_LIMITS;
    }
    check_and_shorten(&message)
}

/// A TibMsg with one field of each type octet and size, its data, and a hint where the type octet says so.
fn tibmsg_type_and_size(number: u64) -> Vec<Call> {
    let [type_octet, size] = pair(number);
    let mut body = vec![0, type_octet];
    if type_octet & 0x80 != 0 {
        body.extend([0, 0, 0]);
    }
    body.push(size);
    body.extend(vec![0x7f; usize::from(size)]);
    if type_octet & 0x40 != 0 {
        body.extend(match type_octet % 16 {
            8 => vec![6, 2],
            9 => vec![6, 9],
            _ => vec![5, 1, 0x80],
        });
    }
    tibmsg(&body)
}

/// A TibMsg with one string, array or partial of eight octets and each first two octets of a hint.
fn tibmsg_hint(number: u64) -> Vec<Call> {
    let [first, second] = pair(number % TWO_OCTETS);
    let type_octet = [0x42, 0x48, 0x49][(number / TWO_OCTETS) as usize];
    let mut body = vec![0, type_octet, 8];
    body.extend([0x11; 8]);
    body.extend([first, second]);
    if type_octet == 0x42 {
        body.extend(vec![0x33; usize::from(second)]);
    }
    tibmsg(&body)
}

fn tibmsg(body: &[u8]) -> Vec<Call> {
    let mut message = vec![0xce, 0x13, 0xaa, 0x1f, 1];
    message.extend((body.len() as u32).to_be_bytes());
    message.extend(body);
    let message: crate::call::Octets = message.into();
    vec![Call::TibmsgCheck { message: message.clone() }, Call::TibmsgField { message, k: 0 }]
}

/// A TibrvMsg with one field of each type and first size octet, and octets behind it that fit.
fn tibrv_type_and_size(number: u64) -> Vec<Call> {
    let [type_octet, size] = pair(number);
    let mut message = vec![0, 0, 0, 0, 0x99, 0x55, 0xee, 0xaa, 0, type_octet, size];
    match size {
        0x79 => message.extend(octets("00 05 01 02 03")),
        0x7a => message.extend(octets("00 00 00 08 99 55 ee aa")),
        _ => message.extend(vec![0x44; usize::from(size).saturating_sub(1)]),
    }
    let length = message.len() as u32;
    message[..4].copy_from_slice(&length.to_be_bytes());
    let message: crate::call::Octets = message.into();
    vec![Call::TibrvCheck { message: message.clone() }, Call::TibrvField { message, k: 0 }]
}

const TABLE: &str = "010006000001010001 0100050000020200 010006000023050100 0100050100000400 010006010001010001";
const MESSAGE: &str = "11 2a 21 8b e6 23 02 4b 57 12 01 f4 30";
const FRAME: &str = "ff 00 00 00 00 00 00 00 02 c1 42 07";
const TIBMSG: &str =
    "ce 13 aa 1f 01 00 00 00 1e 0b 48 53 54 43 4c 53 44 41 54 45 00 42 0c 32 35 20 41 50 52 20 31 39 39 34 00 06 02 01 02";
const TIBRV: &str =
    "00 00 00 27 99 55 ee aa 05 64 61 74 61 00 01 7a 00 00 00 17 99 55 ee aa 06 66 69 65 6c 64 00 08 07 76 61 6c 75 65 00";

/// A sample with one octet set to each value.
fn changed(sample: &str, number: u64) -> crate::call::Octets {
    let mut octets = octets(sample);
    octets[(number / 256) as usize] = number as u8;
    octets.into()
}

fn changed_table(number: u64) -> Vec<Call> {
    let on = Hproto { table: changed(TABLE, number), revision: 2, number: 0, message: octets(MESSAGE).into() };
    vec![Call::Check(on.clone()), Call::Lookup { on, tag: 2, k: 0 }]
}

fn changed_message(number: u64) -> Vec<Call> {
    check_and_shorten_on(Hproto { table: octets(TABLE).into(), revision: 2, number: 0, message: changed(MESSAGE, number) })
}

fn changed_frame(number: u64) -> Vec<Call> {
    vec![Call::FrameRead { buffer: changed(FRAME, number) }]
}

fn changed_tibmsg(number: u64) -> Vec<Call> {
    let message = changed(TIBMSG, number);
    vec![Call::TibmsgCheck { message: message.clone() }, Call::TibmsgField { message, k: 0 }]
}

fn changed_tibrv(number: u64) -> Vec<Call> {
    let message = changed(TIBRV, number);
    vec![Call::TibrvCheck { message: message.clone() }, Call::TibrvField { message, k: 0 }]
}

fn qform_calls(dictionary: &[u8], message: &[u8], k: u64) -> Vec<Call> {
    let on = Qform { dictionary: dictionary.into(), message: message.into() };
    vec![Call::QformCheck(on.clone()), Call::QformField { on, k }]
}

/// A QForm message with each FID, behind a field and before octets for its data, under a full dictionary.
fn qform_fid(number: u64) -> Vec<Call> {
    static FULL: OnceLock<Vec<u8>> = OnceLock::new();
    let dictionary = FULL.get_or_init(dictionaries::full);
    let body = [&[0xc0, 0][..], &pair(number), &[0xc0; 8][..2 * (number % 5) as usize]].concat();
    qform_calls(dictionary, &qform::message(&body), 1)
}

/// A dictionary with each fid in its two octets, and a message with the field of the same low 14 bits.
fn dictionary_fid(number: u64) -> Vec<Call> {
    let [high, low] = pair(number);
    let dictionary = [&records("5 2 1")[..], &[2, 0, 5, high, low, 9, 0, 2]].concat();
    qform_calls(&dictionary, &qform::message(&[high | 0xc0, low, 1, 2]), 0)
}

/// A dictionary with each type and each size below 256, and a message with one field of that size.
fn dictionary_type_and_size(number: u64) -> Vec<Call> {
    let [kind, size] = pair(number);
    let body = [&[0xc0, 3][..], &vec![0x33; usize::from(size) + usize::from(size % 2)]].concat();
    qform_calls(&[2, 0, 5, 0, 3, kind, 0, size], &qform::message(&body), 0)
}

/// A full dictionary with one fault, and a message with a field of the faulty record.
fn dictionary_fault(number: u64) -> Vec<Call> {
    let (dictionary, record) = dictionaries::fault_at(number);
    let fid = dictionaries::full_fid(record as u16) | 0xc000;
    let body = [&fid.to_be_bytes()[..], &[0; 8]].concat();
    qform_calls(&dictionary, &qform::message(&body), 0)
}

/// Messages that end at each place of a field, of each of some sizes.
fn cut_qform(number: u64) -> Vec<Call> {
    let (dictionary, message) = qform::cut(number);
    qform_calls(&dictionary, &message, 3)
}

const DICTIONARY: &str = "0200050001020003 0200053fff010004 02000500070f0009";
const QFORM: &str = "11 11 11 12 00 00 00 12 c0 01 aa bb cc dd ff ff 01 02 03 04 c0 01 01 02 03 04";

fn changed_dictionary(number: u64) -> Vec<Call> {
    qform_calls(&changed(DICTIONARY, number), &octets(QFORM), 1)
}

fn changed_qform(number: u64) -> Vec<Call> {
    qform_calls(&octets(DICTIONARY), &changed(QFORM, number), 2)
}

fn pair(number: u64) -> [u8; 2] {
    [(number >> 8) as u8, number as u8]
}
