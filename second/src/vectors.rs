//! Vectors for the proved leaves: Appendix A's items, their malformed neighbours, simple values, depth 32 and 33,
//! UTF-8 and versions, each with this program's answer.

use crate::appendix::examples;
use crate::cbor::{skip_item, DEPTH};
use crate::judge::major;
use crate::utf8::is_utf8;
use std::collections::HashSet;

/// A letter for the question, and the bytes that it is asked of.
type Vector = (u8, Vec<u8>);

/// The file that crate `vectors` reads.
pub fn file() -> Vec<u8> {
    let record = |(question, bytes): Vector| {
        let length = u16::try_from(bytes.len()).expect("a vector is short");
        [&[question][..], &length.to_be_bytes(), &bytes].concat()
    };
    all().into_iter().flat_map(record).collect()
}

/// What it must print.
pub fn printed() -> String {
    let line = |(question, bytes): Vector| {
        let hex: String = bytes.iter().map(|byte| format!("{byte:02x}")).collect();
        format!("{} {hex} {}\n", question as char, answer(question, &bytes))
    };
    all().into_iter().map(line).collect()
}

fn answer(question: u8, bytes: &[u8]) -> String {
    let yes_or_no = |yes| if yes { "yes" } else { "no" };
    match question {
        b's' => match skip_item(bytes, DEPTH) {
            Ok(taken) => taken.to_string(),
            Err(number) => format!("refused {number}"),
        },
        b'u' => yes_or_no(is_utf8(bytes)).to_string(),
        _ => match major(bytes) {
            Some(run) => format!("version, major 1: {}", yes_or_no(run == b"1")),
            None => "no version".to_string(),
        },
    }
}

/// Every vector once.
fn all() -> Vec<Vector> {
    let items = [
        appendix_a(),
        heads(),
        neighbours(),
        simple_values(),
        chunked(),
        nested(),
    ]
    .concat();
    let items = items.into_iter().flat_map(cut_and_longer);
    let questions = items
        .map(|bytes| (b's', bytes))
        .chain(texts().into_iter().map(|bytes| (b'u', bytes)))
        .chain(versions().into_iter().map(|bytes| (b'v', bytes)));
    let mut seen = HashSet::new();
    questions
        .filter(|vector| seen.insert(vector.clone()))
        .collect()
}

/// An item, each of its beginnings if it is short, and with a byte after it.
fn cut_and_longer(item: Vec<u8>) -> Vec<Vec<u8>> {
    let shortest = if item.len() < 31 { 0 } else { item.len() - 1 };
    let mut made: Vec<_> = (shortest..=item.len())
        .map(|length| item[..length].to_vec())
        .collect();
    made.push([&item[..], b"\x00"].concat());
    made
}

fn appendix_a() -> Vec<Vec<u8>> {
    examples()
        .into_iter()
        .map(|example| example.bytes)
        .collect()
}

/// Every major type with arguments of every width: 1, and the largest.
fn heads() -> Vec<Vec<u8>> {
    let mut made = Vec::new();
    for major in 0..8 {
        for (low, width) in [(24, 1), (25, 2), (26, 4), (27, 8)] {
            let mut one = vec![0; width];
            one[width - 1] = 1;
            for argument in [one, vec![0xFF; width]] {
                // Two bytes more, so that one element, pair or byte is there.
                made.push([&[major << 5 | low][..], &argument, b"\x00\x00"].concat());
            }
        }
    }
    made
}

/// Initial bytes that begin no item, in every place where an item may stand.
fn neighbours() -> Vec<Vec<u8>> {
    let reserved = (0..8).flat_map(|major| [28, 29, 30].map(|low| major << 5 | low));
    let indefinite = [0x1F, 0x3F, 0xDF, 0xFF];
    reserved
        .chain(indefinite)
        .flat_map(|initial| PLACES.map(|place| place(&[initial])))
        .collect()
}

/// Simple values on both sides of RFC 8949's rule, in every place: in a second byte from 32 on.
fn simple_values() -> Vec<Vec<u8>> {
    [0, 22, 31, 32]
        .into_iter()
        .flat_map(|number| PLACES.map(|place| place(&[0xF8, number])))
        .collect()
}

/// Each puts an item in its place in another.
const PLACES: [fn(&[u8]) -> Vec<u8>; 11] = [
    <[u8]>::to_vec,
    |x| [b"\x81", x].concat(),
    |x| [b"\xA1", x, b"\x00"].concat(),
    |x| [b"\xA1\x00", x].concat(),
    |x| [b"\xC0", x].concat(),
    |x| [b"\x9F", x, b"\xFF"].concat(),
    |x| [b"\x9F\x00", x, b"\xFF"].concat(),
    |x| [b"\xBF", x, b"\x00\xFF"].concat(),
    |x| [b"\xBF\x00", x, b"\xFF"].concat(),
    |x| [b"\x5F", x, b"\xFF"].concat(),
    |x| [b"\x7F", x, b"\xFF"].concat(),
];

/// Strings of chunks: sound ones, of the other kind, of no string, and of chunks again.
fn chunked() -> Vec<Vec<u8>> {
    const CHUNKS: [&[u8]; 15] = [
        b"",
        b"\x41a",
        b"\x61a",
        b"\x41a\x40\x58\x01b",
        b"\x61a\x60\x78\x01b",
        b"\x41a\x61b",
        b"\x61a\x41b",
        b"\x5F\x41a\xFF",
        b"\x7F\x61a\xFF",
        b"\x00",
        b"\x80",
        b"\xA0",
        b"\xC0\x41a",
        b"\xC0\x61a",
        b"\xF6",
    ];
    CHUNKS
        .iter()
        .flat_map(|chunks| [&b"\x5F"[..], b"\x7F"].map(|open| [open, chunks, b"\xFF"].concat()))
        .collect()
}

/// An item at depth 32 or 33 below arrays, maps as keys or values, and tags.
fn nested() -> Vec<Vec<u8>> {
    const INNERMOST: [&[u8]; 13] = [
        b"\x00",
        b"\x60",
        b"\x80",
        b"\xA0",
        b"\x9F\xFF",
        b"\xBF\xFF",
        b"\x5F\xFF",
        b"\x81\x00",
        b"",
        b"\x1C",
        b"\xF8\x1F",
        b"\xF8\x20",
        b"\xFF",
    ];
    let mut made = Vec::new();
    for place in &PLACES[1..9] {
        for innermost in INNERMOST {
            for depth in [DEPTH, DEPTH + 1] {
                made.push((1..depth).fold(innermost.to_vec(), |item, _| place(&item)));
            }
        }
    }
    made
}

/// The ends of each row of RFC 3629's table, and just outside, whole and one byte short.
fn texts() -> Vec<Vec<u8>> {
    const FIRST: [u8; 20] = [
        0x00, 0x7F, 0x80, 0xBF, 0xC0, 0xC1, 0xC2, 0xDF, 0xE0, 0xE1, 0xEC, 0xED, 0xEE, 0xEF, 0xF0,
        0xF1, 0xF3, 0xF4, 0xF5, 0xFF,
    ];
    const SECOND: [u8; 8] = [0x7F, 0x80, 0x8F, 0x90, 0x9F, 0xA0, 0xBF, 0xC0];
    let mut made = vec![Vec::new(), b"model.layers.0.w\xC3\xA4rme".to_vec()];
    for first in FIRST {
        for second in SECOND {
            let length = usize::from(first >= 0xC0)
                + usize::from(first >= 0xE0)
                + usize::from(first >= 0xF0)
                + 1;
            for last in [0x7F, 0x80, 0xBF, 0xC0] {
                let whole = [first, second, 0x80, last];
                made.push(whole[..length].to_vec());
                made.push(whole[..length - 1].to_vec());
            }
        }
    }
    made
}

fn versions() -> Vec<Vec<u8>> {
    const VERSIONS: [&str; 34] = [
        "",
        ".",
        "..",
        "1",
        "1.",
        ".1",
        "1.0",
        "1.2",
        "1.2.0",
        "1.2.0.0",
        "1.2.",
        "1..2",
        ".1.2",
        "0.0",
        "00.0",
        "01.2",
        "1.02",
        "1.00",
        "1.2.03",
        "10.0",
        "11.2",
        "2.0",
        "123456789.0",
        "1234567890.0",
        "1.123456789",
        "1.1234567890",
        "1.2.999999999",
        "1.2.1000000000",
        "1/2",
        "1:2",
        "1.a",
        "-1.2",
        "1.2\n",
        "1 .2",
    ];
    VERSIONS
        .iter()
        .map(|version| version.as_bytes().to_vec())
        .collect()
}
