//! Laws that the oracle has to keep on generated and on all small inputs.

use super::*;
use crate::call::Call;
use crate::generate::{self, forms, hproto, reals, short_texts, tables, texts, trees};
use crate::oracle::message::{count, depth, is_text, read, Field, Value};
use crate::oracle::real::fractions;
use crate::oracle::shorten::shortest;
use crate::oracle::table::{load, Table};
use crate::rng::Rng;
use std::collections::HashMap;

#[test]
fn a_tree_is_read_back_from_every_form() {
    for case in 0..4_000 {
        let mut rng = Rng::new(1, case);
        let table = tables::good(&mut rng);
        let revision = 1 + case % 2;
        let tree = hproto::good_tree(&mut rng, &tables::loaded(&table), revision, 0);
        if depth(&tree) > 8 || revision == 2 && repeats(&tables::loaded(&table), 0, &tree) {
            continue;
        }
        let style = trees::Style::random(&mut rng);
        let octets = trees::octets(&mut rng, &tree, style);
        assert_eq!(read(&table, revision, 0, &octets).as_ref(), Ok(&tree), "case {case}");
        let short = shortest(&tree);
        assert_eq!(message::check(&table, revision, 0, &octets), Ok((count(&tree), depth(&tree), octets == short)));
        assert!(short.len() <= octets.len());
        assert_eq!(read(&table, revision, 0, &short).as_ref(), Ok(&tree), "case {case}");
    }
}

/// Whether a message of the tree has a single tag twice, by the tags that are left when each has been taken once.
fn repeats(table: &Table, number: u8, fields: &[Field]) -> bool {
    let mut tags: Vec<u16> = fields.iter().map(|field| field.tag).filter(|tag| table.is_single(2, number, *tag)).collect();
    let all = tags.len();
    tags.sort_unstable();
    tags.dedup();
    let inside = |field: &Field| match &field.value {
        Value::Message(inner) => repeats(table, table.meaning(number, field.tag).1, inner),
        _ => false,
    };
    tags.len() < all || fields.iter().any(inside)
}

/// The place of the first repeat in reading order, from a tree as it was read under revision 1. A repeat is looked at before the fields
/// in it.
fn first_repeat(table: &Table, number: u8, fields: &[Field], start: usize) -> Option<usize> {
    let mut place = start;
    for (index, field) in fields.iter().enumerate() {
        let before = fields[..index].iter().any(|other| other.tag == field.tag);
        if before && table.is_single(2, number, field.tag) {
            return Some(place);
        }
        if let Value::Message(inner) = &field.value {
            let inside = first_repeat(table, table.meaning(number, field.tag).1, inner, field.start);
            if inside.is_some() {
                return inside;
            }
        }
        place = field.start + field.length;
    }
    None
}

/// Under revision 2 a message is read as under revision 1, or refused with 20 at its first repeat. One that revision 1 refuses is refused
/// in the same way, or with 20 at no later a place. Of each there are many, also nested ones.
#[test]
fn the_two_revisions() {
    let mut seen = [0; 5];
    let fixed = generate::fixed_cases();
    for case in (0..fixed).step_by(7).chain(fixed..fixed + 60_000) {
        for call in generate::case(8, case) {
            let Call::Check(on) = call else {
                continue;
            };
            let [one, two] = [1, 2].map(|revision| read(&on.table, revision, on.number, &on.message));
            let Ok(table) = load(&on.table) else {
                assert_eq!(one, two, "case {case}");
                continue;
            };
            let kind = match one {
                Ok(fields) => match first_repeat(&table, on.number as u8, &fields, 0) {
                    None => {
                        assert!(!repeats(&table, on.number as u8, &fields), "case {case}");
                        assert_eq!(two, Ok(fields), "case {case}");
                        0
                    }
                    Some(place) => {
                        assert!(repeats(&table, on.number as u8, &fields), "case {case}");
                        assert_eq!(two, at(20, place as u64), "case {case}");
                        1 + usize::from(fields.iter().all(|field| field.start > place || field.start + field.length <= place))
                    }
                },
                Err(_) if one == two => 3,
                Err(fault) => {
                    assert!(two.as_ref().is_err_and(|repeat| repeat.number == 20 && repeat.place <= fault.place), "case {case}");
                    4
                }
            };
            seen[kind] += 1;
        }
    }
    assert!(seen.iter().all(|count| *count > 500), "{seen:?}");
}

/// A second opinion on whether a message is short: by the octets of each control part and of each number, without writing them.
fn nothing_longer(octets: &[u8], start: usize, fields: &[Field]) -> bool {
    let mut place = start;
    fields.iter().all(|field| {
        let control = field.start - place;
        place = field.start + field.length;
        let contents = &octets[field.start..place];
        let least = match &field.value {
            Value::Uint(_) => contents.first() != Some(&0),
            Value::Int(_) => least_int_octets(contents),
            Value::Message(inner) => nothing_longer(octets, field.start, inner),
            Value::Raw(_) | Value::String(_) | Value::Text(_) => true,
        };
        least && control == 1 + octets_of_tag(field.tag) + octets_of_length(field.length)
    })
}

fn octets_of_tag(tag: u16) -> usize {
    usize::from(tag >= 14) + usize::from(tag >= 256)
}

/// No message has room for a length from 65,536 on.
fn octets_of_length(length: usize) -> usize {
    usize::from(length >= 12) + usize::from(length >= 256)
}

/// Whether no int of fewer octets has the same value.
fn least_int_octets(contents: &[u8]) -> bool {
    let zeros = |octets: &[u8]| octets.iter().all(|octet| *octet == 0);
    match contents {
        [] => true,
        [one] => *one != 0,
        [0x00, second, ..] => *second >= 0x80,
        [0x80, second, rest @ ..] => zeros(&contents[1..]) || *second > 0x80 || *second == 0x80 && !zeros(rest),
        _ => true,
    }
}

/// Both opinions agree on the messages that the differential test makes, and there are many that are short and many that are not.
#[test]
fn short_by_two_ways() {
    let mut seen = [0, 0];
    let fixed = generate::fixed_cases();
    for case in (0..fixed).step_by(7).chain(fixed..fixed + 40_000) {
        for call in generate::case(6, case) {
            let Call::Check(on) = call else {
                continue;
            };
            let Ok(fields) = read(&on.table, on.revision, on.number, &on.message) else {
                continue;
            };
            let short = message::check(&on.table, on.revision, on.number, &on.message).unwrap().2;
            assert_eq!(short, nothing_longer(&on.message, 0, &fields), "case {case}");
            seen[usize::from(short)] += 1;
        }
    }
    assert!(seen.iter().all(|count| *count > 5_000), "{seen:?}");
}

/// A tree in its shortest form is short; with one part in a longer form it is not, unless that part has no longer form. All of these
/// messages are accepted.
#[test]
fn short_but_for_one() {
    for depth in 1..=8 {
        let tree = forms::tree(depth);
        let parts = forms::parts(depth);
        let short = |octets: &[u8]| {
            let (fields, levels, short) = check_octets(forms::table(), octets).unwrap();
            assert_eq!((fields, levels), (count(&tree), depth as u64));
            short
        };
        assert_eq!(forms::short_but_for(&tree, parts, 1), (shortest(&tree), parts));
        assert!(short(&shortest(&tree)));
        let mut said = [0, 0];
        for one in 0..parts {
            said[usize::from(short(&forms::short_but_for(&tree, one, 1).0))] += 1;
        }
        // The tag 300, which is there once at each level, has one form only.
        assert_eq!(said, [parts - depth, depth]);
    }
}

/// Under a table with every kind, no octets of up to four reading the same are shorter than the shortened ones, and no other
/// octets of that length read the same.
#[test]
fn nothing_is_shorter() {
    let table = entries("0 0 1 0, 0 1 2 0, 0 2 4 0, 0 c 5 0");
    let some = [0x00, 0x01, 0x02, 0x0c, 0x10, 0x11, 0x12, 0x7f, 0x80, 0x81, 0xc1, 0xc2, 0xe0, 0xe1, 0xe2, 0x20];
    let mut shortest_of: HashMap<Vec<u8>, Vec<Vec<u8>>> = HashMap::new();
    let mut layer = vec![vec![]];
    for _ in 0..=4 {
        for octets in &layer {
            if let Ok(tree) = read(&table, 2, 0, octets) {
                let same = shortest_of.entry(shortest(&tree)).or_default();
                same.push(octets.clone());
            }
        }
        let longer = |octets: &Vec<u8>| some.map(|octet| [&octets[..], &[octet]].concat());
        layer = layer.iter().flat_map(longer).collect();
    }
    for (short, all) in &shortest_of {
        let trees: Vec<Vec<Field>> = all.iter().map(|octets| read(&table, 2, 0, octets).unwrap()).collect();
        assert!(trees.iter().all(|tree| *tree == trees[0]));
        let no_longer = all.iter().filter(|octets| octets.len() <= short.len());
        assert!(no_longer.clone().all(|octets| octets == short), "{short:02x?} {all:02x?}");
    }
    assert!(shortest_of.len() > 1_000);
}

/// A bad piece makes a text bad, wherever it stands between good characters.
#[test]
fn good_and_bad_texts() {
    for case in 0..100_000 {
        let mut rng = Rng::new(4, case);
        let (before, after) = (texts::good(&mut rng), texts::good(&mut rng));
        assert!(is_text(&[&before[..], &after].concat()), "case {case}");
        assert!(!is_text(&[before, texts::bad_piece(&mut rng), after].concat()), "case {case}");
    }
}

/// What the loop over the short texts expects is what the oracle says of the message as a whole, and it is a case of its own.
#[test]
fn short_texts_are_cases() {
    let mut first = short_texts::FIRST;
    for family in short_texts::families() {
        let mut message = family.message();
        for number in (0..family.count()).step_by(50_021).chain([family.count() - 1]) {
            family.put(number, &mut message);
            let expected = match family.expected(&message) {
                [0, 0, fields, depth, short] => Ok((fields, depth, short == 1)),
                [refusal, place, ..] => at(refusal, place),
            };
            assert_eq!(check_octets(short_texts::table(), &message), expected, "{message:02x?}");
            let calls = generate::case(0, first + number);
            assert_eq!(calls[0].describe(), short_texts::check(&message).describe());
        }
        first += family.count();
    }
    assert_eq!(first, short_texts::FIRST + short_texts::count());
}

/// Every case can be made and answered, and is the same each time.
#[test]
fn cases_are_repeatable() {
    let fixed = generate::fixed_cases();
    for case in (0..generate::samples()).chain((0..fixed).step_by(997)).chain([fixed - 1]).chain(fixed..fixed + 800) {
        let (once, again) = (generate::case(3, case), generate::case(3, case));
        assert_eq!(once.len(), again.len());
        for (one, other) in once.iter().zip(&again) {
            assert_eq!(one.describe(), other.describe());
            let before = vec![9; one.room()];
            assert_eq!(one.expected(&before), other.expected(&before));
        }
    }
}

/// The product in the processor's reals, where it is exact, says the same.
#[test]
fn fractions_agree_with_the_processor() {
    for case in 0..200_000 {
        let mut rng = Rng::new(2, case);
        let real = f64::from_bits(reals::bits(&mut rng));
        let hint = rng.from_to(1, 8);
        let product = real * (1u64 << hint) as f64;
        let whole = product.is_finite() && product == product.trunc() && product.abs() < 9_007_199_254_740_992.0;
        let expected = if whole { Ok(product as i64) } else { at(17, 0) };
        assert_eq!(fractions(real.to_bits(), 1, hint as u64), expected, "{real} {hint}");
    }
}
