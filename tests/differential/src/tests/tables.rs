use super::*;
use crate::oracle::table::{load, Entry, Kind};

fn numbered(count: u16) -> Vec<u8> {
    (0..count).flat_map(|tag| [1, 0, 5, 0, (tag >> 8) as u8, tag as u8, 1, 0]).collect()
}

/// The same with marks.
fn marked(count: u16) -> Vec<u8> {
    (0..count).flat_map(|tag| [1, 0, 6, 0, (tag >> 8) as u8, tag as u8, 1, 0, (tag % 2) as u8]).collect()
}

#[test]
fn good_tables() {
    assert_eq!(load(&[]).unwrap().entries, []);
    let table = load(&octets("01 00 05 0f 12 34 05 0f")).unwrap();
    let entry = Entry { message: 15, tag: 0x1234, kind: Kind::Message, inner: 15, single: false };
    assert_eq!(table.entries, [entry]);
    assert_eq!(load(&numbered(64)).unwrap().entries.len(), 64);
    assert_eq!(load(&numbered(64)).unwrap().entries[63].tag, 63);
}

#[test]
fn marks() {
    let single = |table: &str| -> Vec<bool> { load(&octets(table)).unwrap().entries.iter().map(|entry| entry.single).collect() };
    assert_eq!(single("01 00 05 00 00 01 01 00"), [false]);
    assert_eq!(single("01 00 06 00 00 01 01 00 00"), [false]);
    assert_eq!(single("01 00 06 00 00 01 01 00 01"), [true]);
    assert_eq!(single("01 00 06 0f 12 34 05 0f 01"), [true]);
    assert_eq!(
        single("01 00 06 00 00 01 01 00 01  01 00 05 00 00 02 01 00  01 00 06 00 00 03 01 00 00  01 00 06 01 00 01 01 00 01"),
        [true, false, false, true]
    );
    assert_eq!(load(&marked(64)).unwrap().entries.len(), 64);
    // A mark has an effect under revision 2 only, and at its own message number.
    let table = load(&entries("0 1 1 0 1, 1 1 1 0")).unwrap();
    assert!(table.is_single(2, 0, 1));
    assert!(!table.is_single(1, 0, 1));
    assert!(!table.is_single(2, 1, 1));
    assert!(!table.is_single(2, 0, 2));
}

/// The place of a faulty record counts the octets of the records before it, whatever their lengths.
#[test]
fn places_behind_records_of_both_lengths() {
    let table = |text: &str| load(&octets(text));
    assert_eq!(table("01 00 06 00 00 01 01 00 01  01"), at(2, 9));
    assert_eq!(table("01 00 05 00 00 01 01 00  01 00 06 00 00 02 01 00 01  01 00 06 00 00 03 01 00 02"), at(2, 17));
    assert_eq!(table("01 00 06 00 00 01 01 00 01  01 00 05 00 00 02 01 00  01 00 05 00 00 03 01 81"), at(2, 17));
    // An octet behind a record of length 5 is no mark.
    assert_eq!(table("01 00 05 00 00 01 01 00 01"), at(2, 8));
    assert_eq!(table("01 00 05 00 00 01 01 00 00"), at(2, 8));
    // A record of length 6 takes the first octet of the next one for its mark.
    assert_eq!(table("01 00 06 00 00 01 01 00  01 00 05 00 00 02 01 00"), at(2, 9));
    // A pair comes again in a record of the other length.
    assert_eq!(table("01 00 06 00 00 01 01 00 01  01 00 05 00 00 01 01 00"), at(2, 9));
    assert_eq!(table("01 00 05 00 00 01 01 00  01 00 06 00 00 01 01 00 00"), at(2, 8));
}

#[test]
fn the_same_tag_at_two_message_numbers() {
    let table = load(&entries("0 1 1 0, 1 1 2 0")).unwrap();
    assert_eq!(table.meaning(0, 1), (Kind::Uint, 0));
    assert_eq!(table.meaning(1, 1), (Kind::Int, 0));
    assert_eq!(table.meaning(2, 1), (Kind::Raw, 0));
}

#[test]
fn faulty_records() {
    let good = "01 00 05 00 00 01 01 00";
    for bad in [
        "01",
        "01 00",
        "01 00 05",
        "01 00 05 00 00 02 01",
        "00 00 05 00 00 02 01 00",
        "02 00 05 00 00 02 01 00",
        "01 01 05 00 00 02 01 00",
        "01 00 04 00 00 02 01",
        "01 00 06 00 00 02 01 00",
        "01 00 06 00 00 02 01 00 02",
        "01 00 06 00 00 02 01 00 80",
        "01 00 06 00 00 02 01 00 81",
        "01 00 06 00 00 02 01 00 ff",
        "01 00 06 00 00 02 05 00 05",
        "01 00 06 00 00 02 01 01 00",
        "01 00 06 10 00 02 01 00 00",
        "01 00 06 00 00 02 00 00 00",
        "01 00 06 00 00 01 01 00 00",
        "01 00 07 00 00 02 01 00 00 00",
        "01 01 06 00 00 02 01 00 00",
        "01 06 00 00 00 02 01 00 00",
        "01 00 05 10 00 02 01 00",
        "01 00 05 00 00 02 00 00",
        "01 00 05 00 00 02 06 00",
        "01 00 05 00 00 02 05 10",
        "01 00 05 00 00 02 01 01",
        "01 00 05 00 00 02 01 81",
        "01 00 05 00 00 02 05 81",
        "01 00 05 00 00 02 04 01",
        "01 00 05 00 00 01 02 00",
    ] {
        let table = octets(&format!("{good} {bad}"));
        assert_eq!(load(&table), at(2, 8), "{bad}");
    }
}

#[test]
fn the_first_faulty_record_decides() {
    assert_eq!(load(&entries("0 1 1 0, 0 2 1 0, 0 2 1 0, 0 1 1 0")), at(2, 16));
}

#[test]
fn more_than_64_records() {
    assert_eq!(load(&numbered(65)), at(2, 512));
    let mut more = numbered(64);
    more.push(0xff);
    assert_eq!(load(&more), at(2, 512));
    assert_eq!(load(&numbered(10_000)), at(2, 512));
    assert_eq!(load(&marked(65)), at(2, 576));
    assert_eq!(load(&[marked(64), vec![1]].concat()), at(2, 576));
    assert_eq!(load(&[&marked(64)[..9 * 32], &numbered(64)[8 * 32..], &[1]].concat()), at(2, 544));
}

#[test]
fn the_length_comes_first_and_then_the_table_and_the_revision_and_number() {
    let bad = octets("01 00 05 00 00 01 01 00 ff");
    let long = vec![0; 65_537];
    let number =
        |table: &[u8], number: u64, message: &[u8]| under_either(|revision| message::check(table, revision, number, message));
    assert_eq!(number(&bad, 16, &long), at(1, 0));
    assert_eq!(number(&bad, 16, &[0xf1]), at(2, 8));
    assert_eq!(number(&[], 16, &long), at(1, 0));
    assert_eq!(number(&[], 16, &[0xf1]), at(2, 0));
    assert_eq!(number(&[], 256, &[]), at(2, 0));
    assert_eq!(number(&[], u64::MAX, &[]), at(2, 0));
    assert_eq!(number(&[], 15, &[]), Ok((0, 1, true)));
    for revision in [0, 3, 4, 255, 256, 257, 258, 65_537, (1 << 32) + 1, (1 << 32) + 2, u64::MAX] {
        let check = |table: &[u8], message: &[u8]| message::check(table, revision, 0, message);
        assert_eq!(check(&bad, &long), at(1, 0), "{revision}");
        assert_eq!(check(&bad, &[0xf1]), at(2, 8), "{revision}");
        assert_eq!(check(&[], &long), at(1, 0), "{revision}");
        assert_eq!(check(&[], &[0xf1]), at(2, 0), "{revision}");
        assert_eq!(check(&[], &[]), at(2, 0), "{revision}");
        assert_eq!(message::check(&[], revision, 16, &[]), at(2, 0), "{revision}");
    }
}
