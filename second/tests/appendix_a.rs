//! The 81 items of RFC 8949's Appendix A, and the one that RFC 7049's had besides: decoded, as unknown values, as attributes, as a manifest.

use second::appendix::{self, examples, Example};
use second::cases::Case;
use second::cbor::{self, Kind, Node};
use second::judge::verdict;

fn well_formed() -> impl Iterator<Item = Example> {
    examples().into_iter().filter(Example::is_well_formed)
}

#[test]
fn there_are_81_and_one_that_went() {
    assert_eq!(well_formed().count(), 81);
    let gone = examples().into_iter().filter(|item| !item.is_well_formed());
    let gone: Vec<_> = gone.map(|item| item.diagnostic).collect();
    assert_eq!(gone, ["simple(24)"]);
}

/// RFC 8949, section 3.3: the second byte is at least 32.
#[test]
fn a_simple_value_in_two_bytes_is_32_or_more() {
    for second in 0..=0xFF {
        let bytes = [0xF8, second];
        match cbor::decode(&bytes) {
            Ok(node) => {
                assert!(second >= 32 && matches!(node.kind, Kind::Simple(n) if n == second))
            }
            Err(fault) => assert!(second < 32 && (fault.number, fault.place) == (6, 0)),
        }
    }
    let cut = cbor::decode(b"\xF8").unwrap_err();
    assert_eq!((cut.number, cut.place), (6, 1));
}

#[test]
fn in_every_place_it_is_answered_as_01_says() {
    for Case { what, file, number } in appendix::files() {
        assert_eq!(verdict(&file), (number, 0, 0), "{what}");
    }
}

#[test]
fn cut_short_or_continued() {
    for Example { bytes, .. } in well_formed() {
        let length = bytes.len();
        assert_eq!(cbor::skip_item(&bytes, 32), Ok(length));
        for end in 0..length {
            let fault = cbor::decode(&bytes[..end]).unwrap_err();
            assert_eq!((fault.number, fault.place), (6, end));
        }
        let continued = [&bytes[..], &[0]].concat();
        assert_eq!(cbor::skip_item(&continued, 32), Ok(length));
        let fault = cbor::decode(&continued).unwrap_err();
        assert_eq!((fault.number, fault.place), (6, length));
    }
}

#[test]
fn means_what_the_appendix_says() {
    for Example { bytes, diagnostic } in well_formed() {
        let node = cbor::decode(&bytes).unwrap();
        match (&node.kind, diagnostic.parse::<f64>()) {
            (Kind::Float { width, bits }, Ok(expected)) => {
                let value = float(*width, *bits);
                assert!(
                    value.to_bits() == expected.to_bits() || value.is_nan() && expected.is_nan()
                );
            }
            _ => {
                // The tree forgets which containers are indefinite and where chunks were cut.
                let expected = diagnostic.replace("[_ ", "[").replace("{_ ", "{");
                let expected = expected.replace("', h'", "").replace("\", \"ming", "ming");
                assert_eq!(shown(&bytes, &node), expected);
            }
        }
    }
}

/// Diagnostic notation, RFC 8949, section 8.
fn shown(bytes: &[u8], node: &Node) -> String {
    let list = |parts: Vec<String>| parts.join(", ");
    match &node.kind {
        Kind::Unsigned(n) => n.to_string(),
        Kind::Negative(n) => (-1 - i128::from(*n)).to_string(),
        Kind::Bytes(content) => hex(&bytes[content.clone()]),
        Kind::ChunkedBytes(content) => format!("(_ {})", hex(content)),
        Kind::Text(content) => quoted(&bytes[content.clone()]),
        Kind::ChunkedText(content) => format!("(_ {})", quoted(content)),
        Kind::Array(nodes) => {
            format!(
                "[{}]",
                list(nodes.iter().map(|node| shown(bytes, node)).collect())
            )
        }
        Kind::Map(pairs) => {
            let pair = |(key, value): &(Node, Node)| {
                format!("{}: {}", shown(bytes, key), shown(bytes, value))
            };
            format!("{{{}}}", list(pairs.iter().map(pair).collect()))
        }
        Kind::Tag(number, content) => format!("{number}({})", shown(bytes, content)),
        Kind::Simple(20) => "false".to_string(),
        Kind::Simple(21) => "true".to_string(),
        Kind::Simple(22) => "null".to_string(),
        Kind::Simple(23) => "undefined".to_string(),
        Kind::Simple(number) => format!("simple({number})"),
        Kind::Float { width, bits } => format!("{:?}", float(*width, *bits)),
    }
}

fn hex(bytes: &[u8]) -> String {
    let digits: String = bytes.iter().map(|byte| format!("{byte:02x}")).collect();
    format!("h'{digits}'")
}

fn quoted(bytes: &[u8]) -> String {
    let mut out = String::new();
    for unit in std::str::from_utf8(bytes).unwrap().encode_utf16() {
        match u8::try_from(unit).ok().filter(u8::is_ascii) {
            Some(byte @ (b'"' | b'\\')) => out.extend(['\\', char::from(byte)]),
            Some(byte) => out.push(char::from(byte)),
            None => out += &format!("\\u{unit:04x}"),
        }
    }
    format!("\"{out}\"")
}

fn float(width: u8, bits: u64) -> f64 {
    match width {
        2 => half(bits),
        4 => f64::from(f32::from_bits(bits as u32)),
        _ => f64::from_bits(bits),
    }
}

/// RFC 8949, Appendix D.
fn half(bits: u64) -> f64 {
    let exponent = (bits >> 10 & 0x1F) as i32;
    let mantissa = (bits & 0x3FF) as f64;
    let magnitude = match exponent {
        0 => mantissa * 2f64.powi(-24),
        31 if mantissa == 0.0 => f64::INFINITY,
        31 => f64::NAN,
        _ => (mantissa + 1024.0) * 2f64.powi(exponent - 25),
    };
    if bits & 0x8000 == 0 {
        magnitude
    } else {
        -magnitude
    }
}
