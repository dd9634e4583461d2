use super::*;
use crate::oracle::real::{fractions, widen};
use crate::oracle::tib::Span;
use crate::oracle::tibmsg::{self, Field, Hint};
use crate::oracle::tibrv;

/// A TibMsg with a good header around the fields.
fn tibmsg_of(fields: &str) -> Vec<u8> {
    let fields = octets(fields);
    let mut message = octets("ce 13 aa 1f 01");
    message.extend((fields.len() as u32).to_be_bytes());
    message.extend(fields);
    message
}

fn tibmsg_check(fields: &str) -> Answer<(u64, u64)> {
    tibmsg::check(&tibmsg_of(fields))
}

/// A TibrvMsg with a good header around the fields.
fn tibrv_of(fields: &[u8]) -> Vec<u8> {
    let mut message = (fields.len() as u32 + 8).to_be_bytes().to_vec();
    message.extend(octets("99 55 ee aa"));
    message.extend(fields);
    message
}

fn tibrv_check(fields: &str) -> Answer<(u64, u64)> {
    tibrv::check(&tibrv_of(&octets(fields)))
}

fn span(start: usize, length: usize) -> Span {
    Span { start, length }
}

#[test]
fn worked_tibmsg_fields() {
    let first = |message: &str| tibmsg::kth(&octets(message), 0).unwrap();
    assert_eq!(
        first("ce 13 aa 1f 01 00 00 00 0b 04 6e 61 6d 00 05 04 12 34 56 78"),
        Field { name: span(10, 4), kind: 5, data: span(16, 4), hint: None, real_bits: 0 }
    );
    let date = "0b 48 53 54 43 4c 53 44 41 54 45 00 42 0c 32 35 20 41 50 52 20 31 39 39 34 00 06 02 01 02";
    assert_eq!(
        tibmsg::kth(&tibmsg_of(date), 0).unwrap(),
        Field { name: span(10, 11), kind: 2, data: span(23, 12), hint: Some(Hint { kind: 6, number: 258 }), real_bits: 0 }
    );
    let partial = "08 52 4f 57 36 34 5f 34 00 49 04 41 41 55 55 06 3c";
    assert_eq!(
        tibmsg::kth(&tibmsg_of(partial), 0).unwrap(),
        Field { name: span(10, 8), kind: 9, data: span(20, 4), hint: Some(Hint { kind: 6, number: 60 }), real_bits: 0 }
    );
    let array = "06 41 52 52 41 59 00 48 06 00 01 00 02 00 03 05 02";
    assert_eq!(
        tibmsg::kth(&tibmsg_of(array), 0).unwrap(),
        Field { name: span(10, 6), kind: 8, data: span(18, 6), hint: Some(Hint { kind: 5, number: 2 }), real_bits: 0 }
    );
    assert_eq!(
        first("ce 13 aa 1f 01 00 00 00 17 09 54 52 44 50 52 43 5f 31 00 47 08 3f f2 00 00 00 00 00 00 06 01 13"),
        Field {
            name: span(10, 9),
            kind: 7,
            data: span(21, 8),
            hint: Some(Hint { kind: 6, number: 19 }),
            real_bits: 1.125f64.to_bits()
        }
    );
}

#[test]
fn fields_of_a_tibmsg_are_counted_and_found() {
    let two = "00 05 01 07 00 82 00 00 00 01 41";
    assert_eq!(tibmsg_check(two), Ok((2, 1)));
    let second = tibmsg::kth(&tibmsg_of(two), 1).unwrap();
    assert_eq!(second, Field { name: span(14, 0), kind: 2, data: span(19, 1), hint: None, real_bits: 0 });
    assert_eq!(tibmsg::kth(&tibmsg_of(two), 2), at(18, 0));
    assert_eq!(tibmsg::kth(&tibmsg_of(two), u64::MAX), at(18, 0));
}

#[test]
fn tibmsg_headers() {
    let header = |message: &str| tibmsg::check(&octets(message));
    assert_eq!(header("ce 13 aa 1f 01 00 00 00 00"), Ok((0, 1)));
    assert_eq!(header(""), at(3, 0));
    assert_eq!(header("ff 13 aa 1f 01 00 00 00"), at(3, 0));
    assert_eq!(header("ce 13 aa 1e 01 00 00 00 09"), at(13, 0));
    assert_eq!(header("ce 13 aa 1f 02 00 00 00 00"), at(13, 0));
    assert_eq!(header("ce 13 aa 1f 01 00 00 00 01"), at(14, 0));
    assert_eq!(header("ce 13 aa 1f 01 00 00 00 00 00"), at(14, 0));
    let mut long = octets("ce 13 aa 1f 01 00 00 ff f7 00 83 00 00 ff f1");
    long.resize(65_536, 0);
    assert_eq!(tibmsg::check(&long), Ok((1, 1)));
    long.push(0);
    assert_eq!(tibmsg::check(&long), at(1, 0));
}

#[test]
fn tibmsg_names() {
    assert_eq!(tibmsg_check("00 00 00"), Ok((1, 1)));
    assert_eq!(tibmsg_check("01 00 00 00"), Ok((1, 1)));
    assert_eq!(tibmsg_check("05 41 00 41"), at(3, 9));
    assert_eq!(tibmsg_check("00 00 00 02 00 00 00 00"), at(15, 12));
    assert_eq!(tibmsg_check("02 41 42 00 00"), at(15, 9));
    assert_eq!(tibmsg_check("01 41"), at(15, 9));
    assert_eq!(tibmsg_check("00"), at(3, 9));
}

#[test]
fn tibmsg_types_and_sizes() {
    for bad in ["0b", "0f", "10", "20", "35", "08", "09", "88", "89"] {
        assert_eq!(tibmsg_check(&format!("00 {bad}")), at(16, 9), "{bad}");
    }
    for cut in ["00 05", "00 85 00 00 00", "00 48"] {
        assert_eq!(tibmsg_check(cut), at(3, 9), "{cut}");
    }
    for size in 0..=16u8 {
        let field = |kind: &str| format!("00 {kind} {size:02x} {}", "11".repeat(usize::from(size)));
        let good_number = if [1, 2, 4, 8].contains(&size) { Ok((1, 1)) } else { at(16, 9) };
        assert_eq!(tibmsg_check(&field("05")), good_number, "{size}");
        assert_eq!(tibmsg_check(&field("06")), good_number, "{size}");
        let good_real = if [4, 8].contains(&size) { Ok((1, 1)) } else { at(16, 9) };
        assert_eq!(tibmsg_check(&field("07")), good_real, "{size}");
        for kind in ["00", "01", "02", "03", "04", "0a"] {
            assert_eq!(tibmsg_check(&field(kind)), Ok((1, 1)), "{kind} {size}");
        }
    }
    // A bad size comes before missing data.
    assert_eq!(tibmsg_check("00 05 03"), at(16, 9));
    assert_eq!(tibmsg_check("00 05 04"), at(4, 9));
    assert_eq!(tibmsg_check("00 82 ff ff ff ff"), at(4, 9));
}

#[test]
fn tibmsg_hints() {
    assert_eq!(tibmsg_check("00 40 00 07"), at(3, 9));
    assert_eq!(tibmsg_check("00 40 00"), at(3, 9));
    for bad in ["07 01", "04 01", "46 01", "06 00", "06 03", "06 10"] {
        assert_eq!(tibmsg_check(&format!("00 40 00 {bad}")), at(16, 9), "{bad}");
    }
    assert_eq!(tibmsg_check("00 40 00 06 02 01"), at(3, 9));
    assert_eq!(tibmsg_check("00 40 00 06 01 00"), Ok((1, 1)));
    let hint = |fields: &str| tibmsg::kth(&tibmsg_of(fields), 0).unwrap().hint;
    assert_eq!(hint("00 40 00 05 08 ff ff ff ff ff ff ff ff"), Some(Hint { kind: 5, number: u64::MAX }));
    assert_eq!(hint("00 40 00 06 01 00"), Some(Hint { kind: 6, number: 0 }));
    // Arrays.
    for element in [1, 2, 4, 8] {
        assert_eq!(tibmsg_check(&format!("00 48 00 07 {element:02x}")), Ok((1, 1)));
    }
    assert_eq!(tibmsg_check("00 48 00 07 03"), at(16, 9));
    assert_eq!(tibmsg_check("00 48 02 00 00 04 04"), at(16, 9));
    assert_eq!(tibmsg_check("00 48 02 00 00 03 01"), at(16, 9));
    assert_eq!(tibmsg_check("00 48 02 00 00 08 01"), at(16, 9));
    assert_eq!(tibmsg_check("00 48 02 00 00 04 02"), Ok((1, 1)));
    // Partials.
    assert_eq!(tibmsg_check("00 49 00 06 ff"), Ok((1, 1)));
    assert_eq!(tibmsg_check("00 49 00 05 ff"), at(16, 9));
    assert_eq!(tibmsg_check("00 49 00 05"), at(3, 9));
}

#[test]
fn worked_tibrv_fields() {
    let name = octets("00 00 00 13 99 55 ee aa 04 6e 61 6d 00 0c 05 12 34 56 78");
    let field = tibrv::kth(&name, 0).unwrap();
    assert_eq!((field.name, field.kind, field.data), (span(9, 4), 12, span(15, 4)));
    assert_eq!(tibrv::check(&name), Ok((1, 1)));
    assert_eq!(tibrv::kth(&name, 1), at(18, 0));

    let tail = "99 55 ee aa 05 64 61 74 61 00 01 7a 00 00 00 17 99 55 ee aa 06 66 69 65 6c 64 00 08 07 76 61 6c 75 65 00";
    let nested = octets(&format!("00 00 00 27 {tail}"));
    assert_eq!(tibrv::check(&nested), Ok((2, 2)));
    assert_eq!(tibrv::check(&octets(&format!("00 00 00 1f {tail}"))), at(14, 0));
    let field = tibrv::kth(&nested, 0).unwrap();
    assert_eq!((field.name, field.kind, field.data), (span(9, 5), 1, span(16, 23)));
    let inner = field.data.of(&nested);
    assert_eq!(tibrv::check(inner), Ok((1, 1)));
    let field = tibrv::kth(inner, 0).unwrap();
    assert_eq!((field.name, field.kind, field.data), (span(9, 6), 8, span(17, 6)));

    let opaque = octets("00 00 00 32 99 55 ee aa 07 5f 64 61 74 61 5f 00 07 21 ce 13 aa 1f 01 00 00 00 17 09 54 52 44 50 52 43 5f 31 00 47 08 3f f2 00 00 00 00 00 00 06 01 13");
    let field = tibrv::kth(&opaque, 0).unwrap();
    assert_eq!((field.name, field.kind, field.data), (span(9, 7), 7, span(18, 32)));
    assert_eq!(tibmsg::check(field.data.of(&opaque)), Ok((1, 1)));
}

#[test]
fn tibrv_headers() {
    let header = |message: &str| tibrv::check(&octets(message));
    assert_eq!(header("00 00 00 08 99 55 ee aa"), Ok((0, 1)));
    assert_eq!(header("00 00 00 08 99 55 ee"), at(3, 0));
    assert_eq!(header("00 00 00 09 99 55 ee ab"), at(13, 0));
    assert_eq!(header("00 00 00 09 99 55 ee aa"), at(14, 0));
    let mut long = octets("00 01 00 00 99 55 ee aa 00 07 7a 00 00 ff f5");
    long.resize(65_536, 0);
    assert_eq!(tibrv::check(&long), Ok((1, 1)));
    long.push(0);
    assert_eq!(tibrv::check(&long), at(1, 0));
}

#[test]
fn tibrv_sizes() {
    assert_eq!(tibrv_check("00 07 01"), Ok((1, 1)));
    assert_eq!(tibrv_check("00 07 00"), at(16, 8));
    assert_eq!(tibrv_check("00 07"), at(3, 8));
    assert_eq!(tibrv_check("00"), at(3, 8));
    assert_eq!(tibrv_check("00 07 02"), at(4, 8));
    assert_eq!(tibrv_check(&format!("00 07 78 {}", "22".repeat(0x77))), Ok((1, 1)));
    assert_eq!(tibrv_check("00 07 79 00"), at(3, 8));
    assert_eq!(tibrv_check("00 07 79 00 01"), at(16, 8));
    assert_eq!(tibrv_check("00 07 79 00 02"), Ok((1, 1)));
    assert_eq!(tibrv_check("00 07 7a 00 00 00"), at(3, 8));
    assert_eq!(tibrv_check("00 07 7a 00 00 00 03"), at(16, 8));
    assert_eq!(tibrv_check("00 07 7a 00 00 00 04"), Ok((1, 1)));
    assert_eq!(tibrv_check("00 07 7a ff ff ff ff"), at(4, 8));
    assert_eq!(tibrv_check("00 07 7b"), at(16, 8));
    assert_eq!(tibrv_check("00 ff ff"), at(16, 8));
    assert_eq!(tibrv_check("00 ff 01"), Ok((1, 1)));
    assert_eq!(tibrv_check("02 00 00 07 01"), at(15, 8));
    assert_eq!(tibrv_check("05 41 00 41"), at(3, 8));
}

#[test]
fn tibrv_messages_inside() {
    assert_eq!(tibrv_check("00 01 79"), at(3, 8));
    assert_eq!(tibrv_check("00 01 79 00 02"), at(16, 8));
    assert_eq!(tibrv_check("00 01 10"), at(16, 8));
    assert_eq!(tibrv_check("00 01 00"), at(16, 8));
    assert_eq!(tibrv_check("00 01 7b"), at(16, 8));
    assert_eq!(tibrv_check("00 01 7a 00 00 00 03"), at(16, 8));
    assert_eq!(tibrv_check("00 01 7a 00 00 00 04"), at(3, 11));
    assert_eq!(tibrv_check("00 01 7a 00 00 00 09 99 55 ee aa"), at(4, 8));
    assert_eq!(tibrv_check("00 01 7a 00 00 00 08 99 55 ee ab"), at(13, 11));
    assert_eq!(tibrv_check("00 01 7a 00 00 00 08 99 55 ee aa"), Ok((1, 2)));
    assert_eq!(tibrv_check("00 01 7a 00 00 00 09 99 55 ee aa 00"), at(3, 19));
}

#[test]
fn tibrv_depth() {
    let mut message = tibrv_of(&[]);
    for depth in 1..=8 {
        assert_eq!(tibrv::check(&message), Ok((depth - 1, depth)));
        message = tibrv_of(&[octets("00 01 7a"), message].concat());
    }
    // The ninth message is in the field that starts after the eighth header.
    assert_eq!(tibrv::check(&message), at(5, 7 * 11 + 8));
    // Depth comes before a cut header.
    let mut message = octets("00 00 00 05 99");
    for _ in 1..=8 {
        message = tibrv_of(&[octets("00 01 7a"), message].concat());
    }
    assert_eq!(tibrv::check(&message), at(5, 7 * 11 + 8));
}

#[test]
fn reals_of_four_octets() {
    assert_eq!(widen(0x7f80_0001), 0x7ff0_0000_2000_0000);
    assert_eq!(widen(0xffc0_0000), 0xfff8_0000_0000_0000);
    assert_eq!(widen(0x7fff_ffff), 0x7fff_ffff_e000_0000);
    assert_eq!(widen(0x7f80_0000), f64::INFINITY.to_bits());
    assert_eq!(widen(0x8000_0000), (-0.0f64).to_bits());
    // The processor widens all the others in the same way.
    for step in 0..=0xffff_u32 {
        let bits = step.wrapping_mul(65_537) ^ (step >> 5);
        let real = f32::from_bits(bits);
        if !real.is_nan() {
            assert_eq!(widen(bits), f64::from(real).to_bits(), "{bits:08x}");
        }
        let small = f32::from_bits(step << 7 | step & 0x8000_0000);
        assert_eq!(widen(small.to_bits()), f64::from(small).to_bits());
    }
    let real = |data: &str| tibmsg::kth(&tibmsg_of(&format!("00 07 04 {data}")), 0).unwrap().real_bits;
    assert_eq!(real("7f 80 00 01"), 0x7ff0_0000_2000_0000);
    assert_eq!(real("3f 90 00 00"), 1.125f64.to_bits());
}

#[test]
fn reals_in_fractions() {
    let read = |real: f64, hint: u64| fractions(real.to_bits(), 1, hint);
    assert_eq!(fractions(0x400a_0000_0000_0000, 1, 2), Ok(13));
    assert_eq!(fractions(0xc00a_0000_0000_0000, 1, 2), Ok(-13));
    assert_eq!(read(3.25, 1), at(17, 0));
    assert_eq!(read(3.25, 8), Ok(832));
    assert_eq!(fractions(3.25f64.to_bits(), 0, 2), at(17, 0));
    for hint in [0, 9, 17, 256 + 1, u64::MAX] {
        assert_eq!(read(0.0, hint), at(17, 0));
    }
    assert_eq!(read(-0.0, 3), Ok(0));
    assert_eq!(read(0.0, 8), Ok(0));
    let two_to_52 = (1u64 << 52) as f64;
    assert_eq!(read(two_to_52, 1), at(17, 0));
    assert_eq!(read(-two_to_52, 1), at(17, 0));
    assert_eq!(read(two_to_52 - 0.5, 1), Ok((1 << 53) - 1));
    assert_eq!(read(0.5 - two_to_52, 1), Ok(1 - (1 << 53)));
    assert_eq!(read((1u64 << 45) as f64, 8), at(17, 0));
    assert_eq!(read((1u64 << 44) as f64, 8), Ok(1 << 52));
    for real in [f64::NAN, f64::INFINITY, f64::NEG_INFINITY, f64::MAX, f64::MIN_POSITIVE, f64::from_bits(1), 1.0 / 512.0, 0.1] {
        for hint in 1..=8 {
            assert_eq!(read(real, hint), at(17, 0), "{real} {hint}");
        }
    }
    assert_eq!(read(1.0 / 256.0, 8), Ok(1));
    assert_eq!(read(1.0 / 256.0, 7), at(17, 0));
}
