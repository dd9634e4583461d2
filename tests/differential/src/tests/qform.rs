use super::*;
use crate::generate::dictionaries;
use crate::generate::samples::{records, LISTING, LISTING_DICTIONARY, TYPES, TYPES_DICTIONARY};
use crate::oracle::qform::{check, kth, load, read, Entry, Field};
use crate::oracle::tib::Span;

fn field(fid: u16, kind: u8, start: usize, length: usize) -> Field {
    Field { fid, kind, data: Span { start, length } }
}

/// The answer to a message with a good header around the fields, under fid 1 of size 3 and fid 2 of size 4.
fn trap(fields: &str) -> Answer<(u64, u64)> {
    let fields = octets(fields);
    let mut message = octets("11 11 11 12");
    message.extend((fields.len() as u32).to_be_bytes());
    message.extend(fields);
    check(&records("1 2 3, 2 1 4"), &message)
}

#[test]
fn the_listings_of_the_document() {
    assert_eq!(
        read(&records(LISTING_DICTIONARY), &octets(LISTING)).unwrap(),
        [field(4001, 9, 10, 2), field(4002, 9, 14, 2), field(4003, 9, 18, 2), field(4005, 9, 22, 2)]
    );
    assert_eq!(
        read(&records(TYPES_DICTIONARY), &octets(TYPES)).unwrap(),
        [
            field(2705, 2, 10, 20),
            field(10701, 1, 32, 4),
            field(10703, 2, 38, 4),
            field(10704, 17, 44, 6),
            field(10716, 16, 52, 12),
            field(10730, 14, 66, 8),
            field(10720, 15, 76, 9),
            field(10728, 14, 88, 8),
        ]
    );
    assert_eq!(octets(TYPES).len(), 8 + 0x58);
}

#[test]
fn dictionaries_that_are_good() {
    assert_eq!(load(&[]).unwrap().len(), 0);
    let dictionary = load(&octets("02 00 05 3f ff 15 ff ff  02 00 05 00 00 00 00 00  02 00 05 12 34 0f 00 09")).unwrap();
    assert_eq!(dictionary.len(), 3);
    assert_eq!(dictionary[&16_383], Entry { kind: 21, size: 65_535 });
    assert_eq!(dictionary[&0], Entry { kind: 0, size: 0 });
    assert_eq!(dictionary[&0x1234], Entry { kind: 15, size: 9 });
    assert_eq!(load(&dictionaries::full()).unwrap().len(), 512);
}

#[test]
fn faulty_records() {
    for bad in [
        "02",
        "02 00 05 00 02 02 00",
        "01 00 05 00 02 02 00 04",
        "00 00 05 00 02 02 00 04",
        "03 00 05 00 02 02 00 04",
        "02 01 05 00 02 02 00 04",
        "02 05 00 00 02 02 00 04",
        "02 00 04 00 02 02 00 04",
        "02 00 06 00 02 02 00 04 00",
        "02 00 05 40 00 02 00 04",
        "02 00 05 80 02 02 00 04",
        "02 00 05 c0 02 02 00 04",
        "02 00 05 ff ff 02 00 04",
        "02 00 05 00 02 16 00 04",
        "02 00 05 00 02 ff 00 04",
        "02 00 05 00 02 0f 00 08",
        "02 00 05 00 02 0f 00 0a",
        "02 00 05 00 02 0f 00 00",
        "02 00 05 00 02 0f 01 09",
        "02 00 05 00 02 0f 09 00",
        "02 00 05 00 01 02 00 04",
        "02 00 05 00 01 03 00 08",
    ] {
        assert_eq!(load(&octets(&format!("02 00 05 00 01 02 00 04 {bad}"))), at(2, 8), "{bad}");
    }
    assert_eq!(load(&records("1 1 4, 2 1 4, 2 1 4, 1 1 4")), at(2, 16));
    assert_eq!(load(&records("1 1 4, 2 1 4, 3 1 4, 1 1 4")), at(2, 24));
}

#[test]
fn more_than_512_records() {
    let full = dictionaries::full();
    assert_eq!(load(&[&full[..], &dictionaries::record(1, 2, 4)].concat()), at(2, 4_096));
    assert_eq!(load(&[&full[..], &[2]].concat()), at(2, 4_096));
    assert_eq!(load(&full.repeat(3)), at(2, 4_096));
    assert_eq!(load(&full[8..]).unwrap().len(), 511);
}

/// Each case of the generator has its fault where it says, but for a fid that comes again in the first record.
#[test]
fn faults_at_each_record() {
    let mut good = 0;
    for number in 0..dictionaries::FAULTS_AT {
        let (dictionary, record) = dictionaries::fault_at(number);
        match load(&dictionary) {
            Ok(_) => good += 1,
            refused => assert_eq!(refused, at(2, 8 * record as u64), "{number}"),
        }
    }
    assert_eq!(good, 3);
}

#[test]
fn headers() {
    let header = |message: &str| check(&[], &octets(message));
    assert_eq!(header("11 11 11 12 00 00 00 00"), Ok((0, 1)));
    assert_eq!(header(""), at(3, 0));
    assert_eq!(header("11 11 11 12 00 00 00"), at(3, 0));
    assert_eq!(header("12 11 11 12 00 00 00"), at(3, 0));
    for magic in ["10 11 11 12", "11 10 11 12", "11 11 10 12", "11 11 11 11", "12 11 11 11"] {
        assert_eq!(header(&format!("{magic} 00 00 00 09")), at(13, 0), "{magic}");
    }
    for size in ["00 00 00 01", "00 00 00 08", "01 00 00 00", "ff ff ff ff"] {
        assert_eq!(header(&format!("11 11 11 12 {size}")), at(14, 0), "{size}");
    }
    assert_eq!(header("11 11 11 12 00 00 00 00 c0"), at(14, 0));
    assert_eq!(header("11 11 11 12 00 00 00 01 c0"), at(3, 8));
}

#[test]
fn padding() {
    assert_eq!(trap("c0 01 aa bb cc"), at(4, 8));
    assert_eq!(trap("c0 01 aa bb cc 00"), Ok((1, 1)));
    assert_eq!(trap("c0 01 aa bb cc ff"), Ok((1, 1)));
    assert_eq!(trap("c0 01 aa bb cc c0"), Ok((1, 1)));
    assert_eq!(trap("c0 01 aa bb cc c0 c0 02 01 02 03 04"), Ok((2, 1)));
    assert_eq!(trap("c0 01 aa bb cc c0 02 01 02 03 04"), at(16, 14));
    assert_eq!(trap("c0 02 01 02 03 04 c0 01 aa bb cc"), at(4, 14));
    assert_eq!(trap("c0 02 01 02 03 04 c0 01 aa bb cc dd"), Ok((2, 1)));
    let zero = records("7 2 0, 8 2 1");
    let of = |fields: &str| read(&zero, &octets(&format!("11 11 11 12 00 00 00 {:02x} {fields}", octets(fields).len())));
    assert_eq!(of("c0 07 c0 07"), Ok(vec![field(7, 2, 10, 0), field(7, 2, 12, 0)]));
    // The second octet behind the FID is no part of the data, whatever it could mean.
    assert_eq!(of("c0 08 c0 07 c0 07"), Ok(vec![field(8, 2, 10, 1), field(7, 2, 14, 0)]));
}

#[test]
fn faults_of_fields_in_their_order() {
    assert_eq!(trap("c0"), at(3, 8));
    assert_eq!(trap("80"), at(3, 8));
    assert_eq!(trap("00"), at(3, 8));
    for flags in ["80 01", "40 01", "00 01", "80 03", "bf ff", "7f ff", "80 01 aa bb cc dd"] {
        assert_eq!(trap(flags), at(16, 8), "{flags}");
    }
    assert_eq!(trap("c0 03"), at(19, 8));
    assert_eq!(trap("c0 00"), at(19, 8));
    assert_eq!(trap("ff ff"), at(19, 8));
    assert_eq!(trap("c1 01 aa bb cc dd"), at(19, 8));
    assert_eq!(trap("e0 01 aa bb cc dd"), at(19, 8));
    assert_eq!(trap("c0 01"), at(4, 8));
    assert_eq!(trap("c0 02 01 02 03"), at(4, 8));
    assert_eq!(trap("c0 02 01 02 03 04 c0"), at(3, 14));
    assert_eq!(trap("c0 02 01 02 03 04 80 01"), at(16, 14));
    assert_eq!(trap("c0 02 01 02 03 04 c0 03"), at(19, 14));
    assert_eq!(trap("c0 02 01 02 03 04 c0 02 01"), at(4, 14));
}

#[test]
fn the_length_comes_first_and_then_the_dictionary() {
    let bad = octets("02 00 05 00 01 02 00 04 ff");
    let mut long = octets("11 11 11 12 00 00 ff f9");
    long.resize(65_537, 0xc0);
    assert_eq!(check(&bad, &long), at(1, 0));
    assert_eq!(check(&[], &long), at(1, 0));
    assert_eq!(check(&bad, &[]), at(2, 8));
    assert_eq!(check(&bad, &octets("ff")), at(2, 8));
    assert_eq!(check(&[2], &octets("11 11 11 12 00 00 00 00")), at(2, 0));
    assert_eq!(kth(&bad, &long, 0), at(1, 0));
    assert_eq!(kth(&bad, &[], 0), at(2, 8));
}

#[test]
fn the_longest_message() {
    let of = |size: u16, length: usize| {
        let mut message = octets("11 11 11 12");
        message.extend((length as u32 - 8).to_be_bytes());
        message.extend([0xc0, 7]);
        message.resize(length, 0);
        check(&dictionaries::record(7, 2, size), &message)
    };
    assert_eq!(of(65_526, 65_536), Ok((1, 1)));
    assert_eq!(of(65_525, 65_536), Ok((1, 1)));
    assert_eq!(of(65_527, 65_536), at(4, 8));
    assert_eq!(of(65_525, 65_535), at(4, 8));
    assert_eq!(of(65_535, 65_536), at(4, 8));
    assert_eq!(of(65_526, 65_537), at(1, 0));
}

#[test]
fn fields_by_number() {
    let dictionary = records("1 2 3, 2 1 4, 16383 21 0");
    let message = octets("11 11 11 12 00 00 00 0e c0 02 01 02 03 04 c0 01 aa bb cc dd ff ff");
    assert_eq!(kth(&dictionary, &message, 0), Ok(field(2, 1, 10, 4)));
    assert_eq!(kth(&dictionary, &message, 1), Ok(field(1, 2, 16, 3)));
    assert_eq!(kth(&dictionary, &message, 2), Ok(field(16_383, 21, 22, 0)));
    for k in [3, 4, 1 << 32, u64::MAX] {
        assert_eq!(kth(&dictionary, &message, k), at(18, 0), "{k}");
    }
    // A fault anywhere comes before the field that is wanted.
    let faulty = octets("11 11 11 12 00 00 00 08 c0 02 01 02 03 04 c0 03");
    assert_eq!(kth(&dictionary, &faulty, 0), at(19, 14));
    assert_eq!(kth(&dictionary, &faulty, 9), at(19, 14));
}
