use super::*;
use crate::generate::short_texts::LIMITS as TEXT_LIMITS;
use crate::oracle::lookup::{kth, last, Found};
use crate::oracle::{frame, show};

const UINT: &str = "0 c 1 0";
const INT: &str = "0 c 2 0";
const NESTED: &str = "0 1 5 0";

/// The field with a tag that lookup finds in a message of number 0.
fn find(table: &str, message: &str, tag: u64, k: u64) -> Answer<Found> {
    under_either(|revision| kth(&entries(table), revision, 0, &octets(message), tag, k))
}

fn uint(message: &str) -> u64 {
    find(UINT, message, 12, 0).unwrap().value
}

fn int(message: &str) -> i64 {
    find(INT, message, 12, 0).unwrap().signed_value
}

#[test]
fn unsigned_numbers() {
    assert_eq!(uint("c1 03"), 3);
    assert_eq!(uint("c2 01 23"), 291);
    assert_eq!(uint("c1 00"), 0);
    assert_eq!(uint("c0"), 0);
    assert_eq!(uint("c8 ff ff ff ff ff ff ff ff"), u64::MAX);
    assert_eq!(check(UINT, "c9 00 00 00 00 00 00 00 00 00"), at(6, 0));
}

#[test]
fn signed_numbers() {
    assert_eq!(int("c0"), 0);
    assert_eq!(int("c1 00"), 0);
    assert_eq!(int("c1 80"), -128);
    assert_eq!(int("c2 80 80"), -128);
    assert_eq!(int("c2 00 80"), 128);
    assert_eq!(int("c2 80 81"), -129);
    assert_eq!(int("c2 80 00"), -32_768);
    assert_eq!(int("c4 81 23 45 67"), -0x123_4567);
    assert_eq!(int("c3 80 aa aa"), -0xaaaa);
    assert_eq!(int("c1 81"), -1);
    assert_eq!(int("c1 4a"), 74);
    assert_eq!(int("c1 8b"), -11);
    assert_eq!(int("c8 80 00 00 00 00 00 00 00"), i64::MIN);
    assert_eq!(int("c8 7f ff ff ff ff ff ff ff"), i64::MAX);
    assert_eq!(int("c8 ff ff ff ff ff ff ff ff"), -i64::MAX);
    assert_eq!(check(INT, "c9 00 00 00 00 00 00 00 00 00"), at(6, 0));
}

#[test]
fn shortest_signed_numbers() {
    for (long, short) in [
        ("c1 00", "c0"),
        ("c1 80", "c1 80"),
        ("c2 80 80", "c1 80"),
        ("c2 00 80", "c2 00 80"),
        ("c2 80 81", "c2 80 81"),
        ("c2 80 7f", "c1 ff"),
        ("c3 80 80 00", "c2 80 00"),
        ("c3 80 aa aa", "c3 80 aa aa"),
        ("c4 00 00 7f ff", "c2 7f ff"),
        ("c8 80 80 00 00 00 00 00 00", "c7 80 00 00 00 00 00 00"),
        ("c8 80 00 00 00 00 00 00 00", "c8 80 00 00 00 00 00 00 00"),
    ] {
        assert_eq!(shorten(INT, long), Ok(octets(short)), "{long}");
    }
}

#[test]
fn longer_control_parts() {
    for long in
        ["c1 05", "e1 0c 05", "f1 00 0c 05", "cc 01 05", "cd 00 01 05", "ce 00 00 00 01 05", "ff 00 0c 00 00 00 00 00 00 00 01 05"]
    {
        assert_eq!(shorten(UINT, long), Ok(octets("c1 05")), "{long}");
        assert_eq!(check(UINT, long), Ok((1, 1)), "{long}");
    }
}

#[test]
fn limits_of_the_control_octet() {
    let table = "0 d 1 0, 0 e 1 0, 0 0 3 0";
    assert_eq!(shorten(table, "e1 0d 05"), Ok(octets("d1 05")));
    assert_eq!(shorten(table, "f1 00 0e 05"), Ok(octets("e1 0e 05")));
    assert_eq!(shorten(table, "f1 00 ff 05"), Ok(octets("e1 ff 05")));
    assert_eq!(shorten(table, "f1 01 00 05"), Ok(octets("f1 01 00 05")));
    let eleven = "00 01 02 03 04 05 06 07 08 09 0a";
    assert_eq!(shorten(table, &format!("0c 0b {eleven}")), Ok(octets(&format!("0b {eleven}"))));
    assert_eq!(shorten(table, &format!("0d 00 0c {eleven} 0b")), Ok(octets(&format!("0c 0c {eleven} 0b"))));
}

#[test]
fn short_numbers() {
    assert!(is_short(UINT, ""));
    for short in
        ["c0", "c1 01", "c1 80", "c1 ff", "c2 01 00", "c2 80 00", "c8 01 00 00 00 00 00 00 00", "c8 ff ff ff ff ff ff ff ff"]
    {
        assert!(is_short(UINT, short), "{short}");
    }
    for longer in ["c1 00", "c2 00 00", "c2 00 01", "c2 00 ff", "c3 00 01 00", "c8 00 ff ff ff ff ff ff ff", "c0 c1 00", "c1 00 c0"]
    {
        assert!(!is_short(UINT, longer), "{longer}");
    }
    // 0, 1, -1, 127, -127, -128, 128, -129, 32767, -32768, 32768, -32769, and the least and greatest of eight octets.
    for short in [
        "c0",
        "c1 01",
        "c1 81",
        "c1 7f",
        "c1 ff",
        "c1 80",
        "c2 00 80",
        "c2 80 81",
        "c2 7f ff",
        "c2 ff ff",
        "c2 80 00",
        "c3 00 80 00",
        "c3 80 80 01",
        "c3 80 00 00",
        "c8 80 00 00 00 00 00 00 00",
        "c8 80 80 00 00 00 00 00 01",
        "c8 7f ff ff ff ff ff ff ff",
    ] {
        assert!(is_short(INT, short), "{short}");
    }
    for longer in [
        "c1 00",
        "c2 00 00",
        "c2 00 01",
        "c2 00 7f",
        "c2 80 01",
        "c2 80 7f",
        "c2 80 80",
        "c3 00 00 80",
        "c3 00 7f ff",
        "c3 80 00 01",
        "c3 80 7f ff",
        "c3 80 80 00",
        "c8 80 80 00 00 00 00 00 00",
        "c8 80 7f ff ff ff ff ff ff",
        "c8 00 7f ff ff ff ff ff ff",
    ] {
        assert!(!is_short(INT, longer), "{longer}");
    }
}

#[test]
fn short_control_parts() {
    for short in ["c0", "d0", "e0 0e", "e0 ff", "f0 01 00", "f0 ff ff"] {
        assert!(is_short("", short), "{short}");
    }
    for longer in ["e0 00", "e0 0c", "e0 0d", "f0 00 0d", "f0 00 0e", "f0 00 ff", "0c 00", "0d 00 00", "0e 00 00 00 00"] {
        assert!(!is_short("", longer), "{longer}");
    }
    let with_zeros = |control: &str, length: usize| [octets(control), vec![0; length]].concat();
    let short = |control: &str, length| check_octets(&entries("0 1 4 0"), &with_zeros(control, length)).unwrap().2;
    for tag in ["0", "1"] {
        let control = |rest: &str| format!("{tag}{rest}");
        assert!(short(&control("b"), 11));
        assert!(!short(&control("c 0b"), 11));
        assert!(short(&control("c 0c"), 12));
        assert!(!short(&control("d 00 0c"), 12));
        assert!(short(&control("c ff"), 255));
        assert!(!short(&control("d 00 ff"), 255));
        assert!(short(&control("d 01 00"), 256));
        assert!(!short(&control("e 00 00 01 00"), 256));
        assert!(!short(&control("f 00 00 00 00 00 00 01 00"), 256));
        // The longest that a message of 65,536 octets has room for.
        assert!(short(&control("d ff fd"), 65_533));
        assert!(!short(&control("e 00 00 ff fb"), 65_531));
    }
}

#[test]
fn short_at_every_depth() {
    let table = "0 1 5 0, 0 2 1 0, 0 3 2 0";
    // The innermost of eight levels has a uint of 5, and an int of -128.
    assert!(is_short(table, "1b 1a 19 18 17 16 15 21 05 31 80 00"));
    assert!(!is_short(table, "1c 0c 1b 1a 19 18 17 16 22 00 05 31 80 00"));
    assert!(!is_short(table, "1c 0c 1b 1a 19 18 17 16 21 05 32 80 80 00"));
    assert!(!is_short(table, "1c 0c 1b 1a 19 18 17 16 2c 01 05 31 80 00"));
    assert!(!is_short(table, "1c 0c 1b 1a 19 18 17 16 e1 02 05 31 80 00"));
    assert!(!is_short(table, "1c 0c 1b 1a 19 18 17 1c 05 21 05 31 80 00"));
    // Twelve octets inside, of which eleven are needed: the length is right for what stands there.
    assert!(!is_short(table, "1c 0c 00 00 00 00 00 00 00 00 00 00 21 00"));
    assert!(is_short(table, "1b 00 00 00 00 00 00 00 00 00 00 20"));
    // Raw fields are not entered, and their octets are not numbers.
    assert!(is_short("", "15 22 00 05 31 00"));
    assert!(is_short("0 1 3 0", "12 00 00"));
    assert!(is_short("0 1 4 0", "12 00 00"));
}

#[test]
fn nested_lengths_follow_the_shortened_contents() {
    let table = "0 1 5 1, 1 0 1 0";
    let long = "1c 0c 08 00 00 00 00 00 00 00 2a 02 00 07";
    assert_eq!(shorten(table, long), Ok(octets("14 01 2a 01 07")));
    assert_eq!(check(table, long), Ok((3, 2)));
    assert_eq!(shorten_into(table, long, 5), Ok(octets("14 01 2a 01 07")));
    assert_eq!(shorten_into(table, long, 4), at(9, 0));
}

#[test]
fn places() {
    assert_eq!(check(UINT, "c3 01 02"), at(4, 0));
    assert_eq!(check(UINT, "c0 f1"), at(3, 1));
    assert_eq!(check(NESTED, "12 00 f1"), at(3, 2));
    assert_eq!(check(NESTED, "20 11 f1"), at(3, 2));
    assert_eq!(check(UINT, "cf ff ff ff ff ff ff ff f7"), at(4, 0));
    assert_eq!(check("0 1 5 0, 0 2 1 0, 0 3 4 0", "12 31 ff 29"), at(7, 1));
    assert_eq!(check(NESTED, "12 23 00"), at(4, 1));
}

#[test]
fn depth() {
    assert_eq!(check(NESTED, ""), Ok((0, 1)));
    assert_eq!(check(NESTED, "10"), Ok((1, 2)));
    assert_eq!(check(NESTED, "16 15 14 13 12 11 10"), Ok((7, 8)));
    assert_eq!(check(NESTED, "17 16 15 14 13 12 11 10"), at(5, 7));
    // 4 comes before 5, and 5 before the contents.
    assert_eq!(check(NESTED, "17 16 15 14 13 12 11 11"), at(4, 7));
    assert_eq!(check(NESTED, "18 17 16 15 14 13 12 11 f1"), at(5, 7));
    // A message whose number has no entries is cut, and its fields are raw.
    assert_eq!(check("0 1 5 7", "12 11 10"), Ok((2, 2)));
    assert_eq!(check("0 1 5 7", "11 f1"), at(3, 1));
    // Raw fields are not entered.
    assert_eq!(check("", "11 f1"), Ok((1, 1)));
}

/// Texts with commas between them; the first is empty.
const GOOD_TEXTS: [&str; 3] = [
    ", 00, 7f, c2 80, df bf, e0 a0 80, e0 bf bf, e1 80 80, ec bf bf, ed 80 80, ed 9f bf, ee 80 80, ef bf bf",
    "f0 90 80 80, f0 bf bf bf, f1 80 80 80, f3 bf bf bf, f4 80 80 80, f4 8f bf bf",
    "41 c2 80 41, 7f df bf 00 ef bf bd f4 8f bf bf, c2 80 c2 80, e2 82 ac e2 82 ac, f0 9f 94 8c c2 b5",
];

const BAD_TEXTS: [&str; 8] = [
    // An octet from 80 to bf with no lead before it.
    "80, bf, 41 80, 41 bf 41, c2 80 80, e1 80 80 80, f1 80 80 80 80",
    // Octets that are in no text.
    "c0, c1, f5, f7, f8, fb, fc, fd, fe, ff, f8 80 80 80 80, fc 80 80 80 80 80, ff bf bf bf, 41 ff 41",
    // Cut at the end.
    "c2, df, e0, e1 80, ed 9f, ef bf, f0, f0 90, f0 90 80, f1 80 80, f4 8f bf, 41 c2, 41 e1 80, 41 f1 80 80",
    // An octet outside 80 to bf inside a character.
    "c2 7f, c2 c0, c2 c2 80, e1 7f 80, e1 c0 80, e1 80 7f, e1 80 c0, f1 7f 80 80, f1 80 7f 80, f1 80 80 7f, f1 80 80 c0",
    // Values that fewer octets hold.
    "c0 80, c0 bf, c1 80, c1 bf, e0 80 80, e0 81 bf, e0 9f bf, f0 80 80 80, f0 80 9f bf, f0 8f bf bf",
    // Surrogates, alone and in pairs.
    "ed a0 80, ed af bf, ed b0 80, ed bf bf, ed a0 80 ed b0 80",
    // Values above 10ffff.
    "f4 90 80 80, f4 bf bf bf, f5 80 80 80, f7 bf bf bf",
    // Between good characters.
    "41 c0 80 41, c2 80 ed a0 80 c2 80, 41 f4 90 80 80 41",
];

#[test]
fn text() {
    let text = |contents: &str| {
        let contents = octets(contents);
        counts(&entries("0 1 4 0"), &[&[0x1c, contents.len() as u8], &contents[..]].concat())
    };
    for good in GOOD_TEXTS.iter().flat_map(|texts| texts.split(',')) {
        assert_eq!(text(good), Ok((1, 1)), "{good}");
    }
    for bad in BAD_TEXTS.iter().flat_map(|texts| texts.split(',')) {
        assert_eq!(text(bad), at(7, 0), "{bad}");
    }
}

/// A third opinion: the standard library says the same of every text of up to three octets, and of four at the limits.
#[test]
fn text_as_the_standard_library_has_it() {
    let same = |contents: &[u8]| {
        assert_eq!(message::is_text(contents), std::str::from_utf8(contents).is_ok(), "{contents:02x?}");
    };
    same(&[]);
    for number in 0..1u32 << 24 {
        let [_, first, second, third] = number.to_be_bytes();
        same(&[first, second, third]);
        if first == 0 {
            same(&[second, third]);
        }
        if first == 0 && second == 0 {
            same(&[third]);
        }
    }
    for number in 0..TEXT_LIMITS.len().pow(4) {
        let octet = |power: u32| TEXT_LIMITS[number / TEXT_LIMITS.len().pow(power) % TEXT_LIMITS.len()];
        same(&[octet(3), octet(2), octet(1), octet(0)]);
    }
}

#[test]
fn message_length() {
    assert_eq!(check_octets(&[], &vec![0; 65_536]), Ok((65_536, 1, true)));
    assert_eq!(check_octets(&[], &vec![0; 65_537]), at(1, 0));
}

#[test]
fn worked_messages() {
    let person = "0 0 3 0, 0 1 3 0, 0 2 1 0";
    let john = "04 4a 6f 68 6e 13 44 6f 65 22 07 c6";
    assert_eq!(check(person, john), Ok((3, 1)));
    assert_eq!(find(person, john, 0, 0), Ok(Found { kind: 3, value: 0, signed_value: 0, start: 1, length: 4 }));
    assert_eq!(find(person, john, 1, 0), Ok(Found { kind: 3, value: 0, signed_value: 0, start: 6, length: 3 }));
    assert_eq!(find(person, john, 2, 0), Ok(Found { kind: 1, value: 1990, signed_value: 0, start: 10, length: 2 }));

    let vector = "0 0 2 0, 0 1 2 0, 0 2 2 0";
    let part = |message: &str, tag| find(vector, message, tag, 0).unwrap().signed_value;
    let parts = |message: &str| [part(message, 0), part(message, 1), part(message, 2)];
    assert_eq!(parts("01 82 13 11 38 54 21 90"), [-2, 0x11_3854, -0x10]);
    assert_eq!(parts("01 4a 10 21 8b"), [74, 0, -11]);

    let hello = "fc 12 34 0c 48 65 6c 6c 6f 2c 20 77 6f 72 6c 64";
    assert_eq!(find("0 1234 3 0", hello, 0x1234, 0), Ok(Found { kind: 3, value: 0, signed_value: 0, start: 4, length: 12 }));
    assert_eq!(find("0 c 3 0", "c5 48 65 6c 6c 6f", 12, 0).unwrap().length, 5);
    assert_eq!(find("0 9 1 0", "93 00 00 00", 9, 0).unwrap().value, 0);

    let person2 =
        "88 47 c3 bc 6e 74 68 65 72 ea 23 42 72 75 6e 74 68 61 6c 65 72 fc 45 67 0e 07 ff ff ff ff ff ff ff ff ff ff ff ff ff";
    assert_eq!(check("0 8 4 0, 0 23 4 0, 0 4567 1 0", person2), at(6, 21));
    assert_eq!(check("0 8 4 0, 0 23 4 0", person2), Ok((3, 1)));
    assert_eq!(
        find("0 8 4 0, 0 23 4 0", person2, 0x4567, 0).unwrap(),
        Found { kind: 0, value: 0, signed_value: 0, start: 25, length: 14 }
    );
}

#[test]
fn lookup_of_repeated_tags() {
    let table = "0 1 1 0, 0 2 1 0, 0 3 1 0";
    let message = "11 11 21 22 31 33 21 44 11 55 21 66";
    let values = |tag: u64, count: u64| -> Vec<u64> { (0..count).map(|k| find(table, message, tag, k).unwrap().value).collect() };
    assert_eq!(values(1, 2), [0x11, 0x55]);
    assert_eq!(values(2, 3), [0x22, 0x44, 0x66]);
    assert_eq!(values(3, 1), [0x33]);
    assert_eq!(find(table, message, 3, 1), at(18, 0));
    assert_eq!(find(table, message, 4, 0), at(18, 0));
    assert_eq!(find(table, message, 65_537, 0), at(18, 0));
    assert_eq!(find(table, message, 1, u64::MAX), at(18, 0));
    let last_of = |tag| under_either(|revision| last(&entries(table), revision, 0, &octets(message), tag));
    assert_eq!(last_of(2).unwrap().value, 0x66);
    assert_eq!(last_of(1).unwrap().start, 9);
    assert_eq!(last_of(4), at(18, 0));
    assert_eq!(last_of(65_537), at(18, 0));
}

#[test]
fn lookup_looks_at_the_outermost_fields_after_the_whole_check() {
    let table = "0 1 5 0, 0 2 2 0";
    assert_eq!(find(table, "12 21 05 21 85", 2, 0), Ok(Found { kind: 2, value: 0, signed_value: -5, start: 4, length: 1 }));
    assert_eq!(find(table, "12 21 05 21 85", 1, 0), Ok(Found { kind: 5, value: 0, signed_value: 0, start: 1, length: 2 }));
    assert_eq!(find(table, "12 21 05 21 85 f1", 2, 0), at(3, 5));
    assert_eq!(find(table, "12 21 05", 2, 0), at(18, 0));
    assert_eq!(find(table, "e0 30", 0x30, 0), Ok(Found { kind: 0, value: 0, signed_value: 0, start: 2, length: 0 }));
}

#[test]
fn frames_read() {
    let read = |buffer: &str| frame::read(&octets(buffer));
    assert_eq!(read("02 c1 42"), Ok((1, 3)));
    assert_eq!(read("02 c1 42 99 99"), Ok((1, 3)));
    assert_eq!(read("00"), Ok((1, 1)));
    assert_eq!(read("fc 01 07"), Ok((2, 3)));
    assert_eq!(read("fd 00 01 07"), Ok((3, 4)));
    assert_eq!(read("fe 00 00 00 01 07"), Ok((5, 6)));
    assert_eq!(read("ff 00 00 00 00 00 00 00 01 07"), Ok((9, 10)));
    assert_eq!(read(""), at(3, 0));
    assert_eq!(read("fc"), at(3, 0));
    assert_eq!(read("fe 00 01 00"), at(3, 0));
    assert_eq!(read("fe 00 01 00 01"), at(1, 0));
    assert_eq!(read("fe 00 01 00 00"), at(4, 0));
    assert_eq!(read("02 c1"), at(4, 0));
    assert_eq!(read("ff ff ff ff ff ff ff ff ff"), at(1, 0));
    let mut largest = octets("ff 00 00 00 00 00 01 00 00");
    largest.resize(65_545, 0);
    assert_eq!(frame::read(&largest), Ok((9, 65_545)));
    largest.push(0);
    assert_eq!(frame::read(&largest), at(1, 0));
    assert_eq!(frame::read(&vec![0; 65_545]), Ok((1, 1)));
}

#[test]
fn frames_written() {
    let front = |size: usize| frame::write(&vec![9; size], usize::MAX).map(|frame| frame[..frame.len() - size].to_vec());
    assert_eq!(front(0), Ok(octets("00")));
    assert_eq!(front(251), Ok(octets("fb")));
    assert_eq!(front(252), Ok(octets("fc fc")));
    assert_eq!(front(255), Ok(octets("fc ff")));
    assert_eq!(front(256), Ok(octets("fd 01 00")));
    assert_eq!(front(65_535), Ok(octets("fd ff ff")));
    assert_eq!(front(65_536), Ok(octets("fe 00 01 00 00")));
    assert_eq!(frame::write(&vec![9; 65_537], 0), at(1, 0));
    assert_eq!(frame::write(&octets("c1 42"), 3), Ok(octets("02 c1 42")));
    assert_eq!(frame::write(&octets("c1 42"), 2), at(9, 0));
}

const SHOWN: &str = "depth tag kind value
1 0001 uint 42
1 0002 int -11
1 0023 message 2
2 0000 text 4b57
2 0001 uint 500
1 0003 raw -
fields 6 octets 13
";

#[test]
fn shown() {
    let shown = |input: &str| String::from_utf8(show::text(&octets(input))).unwrap();
    let table = "28 0100050000010100 0100050000020200 0100050000230501 0100050100000400 0100050100010100";
    assert_eq!(shown(&format!("{table} 0d 11 2a 21 8b e6 23 02 4b 57 12 01 f4 30")), SHOWN);
    assert_eq!(shown("00 00"), "depth tag kind value\nfields 0 octets 0\n");
    assert_eq!(shown("08 0100050000010500 01 10"), "depth tag kind value\n1 0001 message 0\nfields 1 octets 1\n");
    assert_eq!(shown("08 01000500000c0100 0a c9 00 00 00 00 00 00 00 00 00"), "refused 6 at 0\n");
    assert_eq!(shown("00 01 c3 00"), "refused 14 at 0\n");
    assert_eq!(shown("00 02 c3"), "refused 4 at 0\n");
    assert_eq!(shown("00 01 c3"), "refused 4 at 0\n");
    assert_eq!(shown("00 02 c0 c3"), "refused 4 at 1\n");
    assert_eq!(shown(""), "refused 3 at 0\n");
    assert_eq!(shown("00"), "refused 3 at 0\n");
    assert_eq!(shown("00 fd 00"), "refused 3 at 0\n");
    assert_eq!(shown("10 0100050000010100 0100050000010100 fd"), "refused 2 at 8\n");
    assert_eq!(shown("fe 00 01 00 01"), "refused 1 at 0\n");
}

#[test]
fn show_takes_65536_octets() {
    let mut input = octets("00 fe 00 00 ff fa");
    input.resize(65_536, 0);
    let text = String::from_utf8(show::text(&input)).unwrap();
    assert!(text.ends_with("fields 65530 octets 65530\n"));
    input.push(0);
    assert_eq!(show::text(&input), b"refused 1 at 0\n");
}
