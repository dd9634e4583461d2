//! Single fields: revision 2 of the meter profile.

use super::*;
use crate::generate::repeats;
use crate::oracle::lookup::{kth, last};
use crate::oracle::show;

/// What the check says of a message of number 0 under revision 1 and under revision 2.
fn both(table: &str, message: &str) -> [Answer<(u64, u64)>; 2] {
    [1, 2].map(|revision| {
        let answer = message::check(&entries(table), revision, 0, &octets(message));
        answer.map(|(fields, depth, _)| (fields, depth))
    })
}

/// Tag 2 is a single uint.
const UINT: &str = "0 2 1 0 1";
/// Tag 1 is message 0 again, tag 2 a single uint and tag 3 a single text.
const NESTED: &str = "0 1 5 0, 0 2 1 0 1, 0 3 4 0 1";
/// Tag 1 is message 0 again, single.
const SINGLE_MESSAGE: &str = "0 1 5 0 1, 0 2 1 0";

#[test]
fn a_single_field_comes_once() {
    assert_eq!(both(UINT, "20"), [Ok((1, 1)), Ok((1, 1))]);
    assert_eq!(both(UINT, "20 20"), [Ok((2, 1)), at(20, 1)]);
    assert_eq!(both(UINT, "22 00 05 30 31 00 20"), [Ok((4, 1)), at(20, 6)]);
    assert_eq!(both(UINT, "20 30 30"), [Ok((3, 1)), Ok((3, 1))]);
    assert_eq!(both("0 2 1 0 0", "20 20"), [Ok((2, 1)), Ok((2, 1))]);
    assert_eq!(both("0 2 1 0", "20 20"), [Ok((2, 1)), Ok((2, 1))]);
    // The first repeat is refused, not the last.
    assert_eq!(both(UINT, "20 20 20"), [Ok((3, 1)), at(20, 1)]);
}

#[test]
fn a_longer_form_is_a_repeat() {
    for repeat in ["20", "e0 02", "f0 00 02", "2c 00", "ed 02 00 00", "ff 00 02 00 00 00 00 00 00 00 00"] {
        for first in ["20", "e0 02", "f0 00 02", "2c 00", "fe 00 02 00 00 00 00"] {
            let place = octets(first).len() as u64;
            assert_eq!(both(UINT, &format!("{first} {repeat}")), [Ok((2, 1)), at(20, place)], "{first} {repeat}");
        }
    }
    let great = "0 d 1 0 1, 0 e 1 0 1, 0 100 1 0 1";
    assert_eq!(both(great, "d0 e0 0e f0 01 00"), [Ok((3, 1)), Ok((3, 1))]);
    assert_eq!(both(great, "d0 e0 0e f0 01 00 e0 0d"), [Ok((4, 1)), at(20, 6)]);
    assert_eq!(both(great, "d0 e0 0e f0 01 00 f0 00 0e"), [Ok((4, 1)), at(20, 6)]);
    assert_eq!(both(great, "d0 e0 0e f0 01 00 f0 01 00"), [Ok((4, 1)), at(20, 6)]);
}

/// 3, 4, 5, 20, and then the contents.
#[test]
fn the_order_of_refusals() {
    let nine = "29 00 00 00 00 00 00 00 00 00";
    assert_eq!(both(UINT, &format!("20 {nine}")), [at(6, 1), at(20, 1)]);
    assert_eq!(both(UINT, &format!("{nine} 20")), [at(6, 0), at(6, 0)]);
    assert_eq!(both("0 2 4 0 1", "20 21 ff"), [at(7, 1), at(20, 1)]);
    assert_eq!(both("0 2 4 0 1", "21 ff 20"), [at(7, 0), at(7, 0)]);
    // A repeat that is cut or not all there is refused for that.
    assert_eq!(both(UINT, "20 2c"), [at(3, 1), at(3, 1)]);
    assert_eq!(both(UINT, "20 e0"), [at(3, 1), at(3, 1)]);
    assert_eq!(both(UINT, "20 21"), [at(4, 1), at(4, 1)]);
    assert_eq!(both(UINT, "20 e1 02"), [at(4, 1), at(4, 1)]);
    // A fault of an earlier field comes first, and one of a later field does not.
    assert_eq!(both(UINT, "20 33 00 20"), [at(4, 1), at(4, 1)]);
    assert_eq!(both(UINT, "20 20 33"), [at(4, 2), at(20, 1)]);
    assert_eq!(both(UINT, "20 20 f1"), [at(3, 2), at(20, 1)]);
}

#[test]
fn each_message_on_its_own() {
    assert_eq!(both(NESTED, "11 20 11 20 20"), [Ok((5, 2)), Ok((5, 2))]);
    assert_eq!(both(NESTED, "20 11 20 11 20"), [Ok((5, 2)), Ok((5, 2))]);
    assert_eq!(both(NESTED, "20 13 20 11 20"), [Ok((5, 3)), Ok((5, 3))]);
    assert_eq!(both(NESTED, "20 12 20 20"), [Ok((4, 2)), at(20, 3)]);
    assert_eq!(both(NESTED, "11 20 11 20 20 20"), [Ok((6, 2)), at(20, 5)]);
    assert_eq!(both(NESTED, "14 20 11 20 20"), [Ok((5, 3)), at(20, 4)]);
    // By the message number: in message 1 the tag is single, in message 0 it is not.
    let other = "0 1 5 1, 0 2 1 0, 1 2 1 0 1";
    assert_eq!(both(other, "20 20 11 20"), [Ok((4, 2)), Ok((4, 2))]);
    assert_eq!(both(other, "20 20 12 20 20"), [Ok((5, 2)), at(20, 4)]);
}

#[test]
fn single_messages() {
    assert_eq!(both(SINGLE_MESSAGE, "11 10"), [Ok((2, 3)), Ok((2, 3))]);
    assert_eq!(both(SINGLE_MESSAGE, "10 10"), [Ok((2, 2)), at(20, 1)]);
    assert_eq!(both(SINGLE_MESSAGE, "12 10 10"), [Ok((3, 3)), at(20, 2)]);
    assert_eq!(both(SINGLE_MESSAGE, "10 f1 00 01 10"), [Ok((3, 3)), at(20, 1)]);
    // Before the contents of the repeat, and after those of the first.
    assert_eq!(both(SINGLE_MESSAGE, "10 11 f1"), [at(3, 2), at(20, 1)]);
    assert_eq!(both(SINGLE_MESSAGE, "11 f1 10"), [at(3, 1), at(3, 1)]);
    assert_eq!(both(SINGLE_MESSAGE, "10 12 00"), [at(4, 1), at(4, 1)]);
}

#[test]
fn eight_and_nine_deep() {
    assert_eq!(both(NESTED, "18 17 16 15 14 13 12 20 20"), [Ok((9, 8)), at(20, 8)]);
    assert_eq!(both(NESTED, "19 18 17 16 15 14 13 20 e0 02"), [Ok((9, 8)), at(20, 8)]);
    // A ninth level is refused before a repeat behind it, and after one in front of it.
    assert_eq!(both(NESTED, "19 18 17 16 15 14 13 20 10 20"), [at(5, 8), at(5, 8)]);
    assert_eq!(both(NESTED, "19 18 17 16 15 14 13 20 20 10"), [at(5, 9), at(20, 8)]);
    // In a chain of single messages: the ninth level is 5, a second message on the eighth level 20.
    assert_eq!(both(SINGLE_MESSAGE, "17 16 15 14 13 12 11 10"), [at(5, 7), at(5, 7)]);
    assert_eq!(both(SINGLE_MESSAGE, "17 16 15 14 13 12 10 10"), [Ok((8, 8)), at(20, 7)]);
    assert_eq!(both(SINGLE_MESSAGE, "18 17 16 15 14 13 12 10 10"), [at(5, 7), at(5, 7)]);
}

#[test]
fn lookup_and_shortener_follow_the_check() {
    let table = entries(UINT);
    let message = octets("20 e1 02 05");
    for revision in [1, 2, 3] {
        let refusal = message::check(&table, revision, 0, &message).err();
        assert_eq!(shorten::shorten(&table, revision, 0, &message, 100).err(), refusal);
        assert_eq!(kth(&table, revision, 0, &message, 2, 0).err(), refusal);
        assert_eq!(kth(&table, revision, 0, &message, 2, 1).err(), refusal);
        assert_eq!(last(&table, revision, 0, &message, 2).err(), refusal);
    }
    assert_eq!(message::check(&table, 2, 0, &message), at(20, 1));
    assert_eq!(message::check(&table, 3, 0, &message), at(2, 0));
    assert_eq!(message::check(&table, 1, 0, &message), Ok((2, 1, false)));
    assert_eq!(shorten::shorten(&table, 1, 0, &message, 3), Ok(octets("20 21 05")));
    assert_eq!(last(&table, 1, 0, &message, 2).unwrap().value, 5);
    // The refusal comes before 9 and 18.
    assert_eq!(shorten::shorten(&table, 2, 0, &message, 0), at(20, 1));
    assert_eq!(kth(&table, 2, 0, &message, 9, 0), at(20, 1));
    assert_eq!(last(&table, 2, 0, &message, 9), at(20, 1));
    // A field that comes once is found as before.
    assert_eq!(kth(&table, 2, 0, &octets("30 e1 02 05"), 2, 0).unwrap().value, 5);
    assert_eq!(kth(&table, 2, 0, &octets("30 e1 02 05"), 2, 1), at(18, 0));
}

#[test]
fn show_reads_under_revision_2() {
    let shown = |input: &str| String::from_utf8(show::text(&octets(input))).unwrap();
    let table = "09 01 00 06 00 00 02 01 00 01";
    assert_eq!(shown(&format!("{table} 02 21 05")), "depth tag kind value\n1 0002 uint 5\nfields 1 octets 2\n");
    assert_eq!(shown(&format!("{table} 03 20 e0 02")), "refused 20 at 1\n");
    assert_eq!(shown("09 01 00 06 00 00 02 01 00 02 01 20"), "refused 2 at 0\n");
    let many = "depth tag kind value\n1 0002 uint 0\n1 0002 uint 0\nfields 2 octets 3\n";
    assert_eq!(shown("08 01 00 05 00 00 02 01 00 03 20 e0 02"), many);
    assert_eq!(shown("09 01 00 06 00 00 02 01 00 00 03 20 e0 02"), many);
}

/// A full table, by the order of its entries: the repeat is refused where its entry is single, at the last field of the message.
#[test]
fn each_entry_of_a_full_table() {
    for number in 0..repeats::ORDERS {
        let (table, message) = repeats::order_case(number);
        let refused = number % 128 >= 64 || number < 128;
        let expected = if refused { at(20, 128) } else { Ok((65, 1, false)) };
        assert_eq!(message::check(&table, 2, 0, &message), expected, "{number}");
        assert_eq!(message::check(&table, 1, 0, &message), Ok((65, 1, false)), "{number}");
    }
}
