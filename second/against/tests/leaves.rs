//! Each proved leaf against the second program, or plain Rust, on generated and mutated inputs.
//! The seed is fixed; `SEED=n` takes another. Each test prints how often each answer occurred.

use against::tally::{hex, rounds, seed, yes_or_no, Tally};
use second::cbor::{skip_item, DEPTH};
use second::frame::MAGIC;
use second::generate::rng::Rng;
use second::generate::Generator;
use second::judge::major;
use second::utf8::is_utf8;
use std::cmp::Ordering;
use std::collections::HashSet;

const ITEMS: u64 = rounds(4_000_000);
const TEXTS: u64 = rounds(500_000);
const LISTS: u64 = rounds(100_000);

/// Mostly all the levels, often few.
fn levels(rng: &mut Rng) -> u32 {
    let under = *rng.pick(&[1, 7, DEPTH]);
    match rng.one_in(2) {
        true => DEPTH,
        false => DEPTH.min(rng.below(u64::from(under) + 1) as u32),
    }
}

fn compare_item(tally: &mut Tally, bytes: &[u8], levels: u32) {
    let second = skip_item(bytes, levels);
    let label = match second {
        Ok(_) => "accepted".to_string(),
        Err(number) => format!("refused {number}"),
    };
    tally.compare(label, against::skip(bytes, levels), second, || {
        format!("{levels} levels of {}", hex(bytes))
    });
}

#[test]
fn skip() {
    let mut tally = Tally::of("skip");
    let mut generator = Generator::new(seed());
    let mut rng = Rng::new(!seed());
    for _ in 0..ITEMS / 2 {
        let mut bytes = generator.next_item();
        compare_item(&mut tally, &bytes, levels(&mut rng));
        generator.damage(&mut bytes);
        compare_item(&mut tally, &bytes, levels(&mut rng));
    }
    tally.report(3);
}

/// A head of this major type with an argument of `width` bytes.
fn head(major: u8, width: usize, argument: u64) -> Vec<u8> {
    let low = 24 + width.trailing_zeros() as u8;
    let mut bytes = vec![major << 5 | low];
    bytes.extend(&argument.to_be_bytes()[8 - width..]);
    bytes
}

/// Lengths and counts where the argument needs one byte more, whole and one short.
#[test]
fn skip_long() {
    let mut tally = Tally::of("skip, long");
    for length in [0xFF, 0x100, 0xFFFF, 0x1_0000, 0x1_0001] {
        for width in [2, 4, 8]
            .into_iter()
            .filter(|&width| length >> (8 * width - 1) < 2)
        {
            for (major, each) in [(2, 1), (3, 1), (4, 1), (5, 2)] {
                let mut bytes = head(major, width, length as u64);
                bytes.resize(bytes.len() + each * length, 0);
                compare_item(&mut tally, &bytes, DEPTH);
                compare_item(&mut tally, &bytes[..bytes.len() - 1], DEPTH);
            }
        }
    }
    tally.report(2);
}

/// One of them after another, by chance, or changed by chance.
fn pieces(generator: &mut Generator, rng: &mut Rng, from: &[&[u8]]) -> Vec<u8> {
    let mut text = Vec::new();
    for _ in 0..rng.index(9) {
        text.extend(*rng.pick(from));
    }
    if rng.one_in(4) {
        generator.damage(&mut text);
    }
    text
}

#[test]
fn utf8() {
    const CHARACTERS: [&[u8]; 12] = [
        b"a",
        b"\x7F",
        b"model.layers.",
        b"\xC2\x80",
        b"\xDF\xBF",
        b"\xE0\xA0\x80",
        b"\xED\x9F\xBF",
        b"\xEE\x80\x80",
        b"\xEF\xBF\xBF",
        b"\xF0\x90\x80\x80",
        b"\xF3\xBF\xBF\xBF",
        b"\xF4\x8F\xBF\xBF",
    ];
    const ENDS: [u8; 16] = [
        0x7F, 0x80, 0x8F, 0x90, 0x9F, 0xA0, 0xBF, 0xC0, 0xC1, 0xC2, 0xE0, 0xED, 0xEF, 0xF0, 0xF4,
        0xF5,
    ];
    let mut tally = Tally::of("utf8");
    let mut generator = Generator::new(seed());
    let mut rng = Rng::new(!seed());
    for _ in 0..TEXTS {
        let mut text = pieces(&mut generator, &mut rng, &CHARACTERS);
        if rng.one_in(2) {
            let end = *rng.pick(&ENDS);
            if let Some(byte) = rng.pick_mut(&mut text) {
                *byte = end;
            }
        }
        let second = is_utf8(&text);
        tally.compare(yes_or_no(second), against::utf8(&text), second, || {
            hex(&text)
        });
    }
    tally.report(2);
}

#[test]
fn version() {
    const RUNS: [&[u8]; 10] = [
        b".",
        b".0",
        b".10",
        b"0",
        b"1",
        b"1.",
        b"1.2",
        b"12345678",
        b"/",
        b":",
    ];
    let mut tally = Tally::of("version");
    let mut generator = Generator::new(seed());
    let mut rng = Rng::new(!seed());
    for _ in 0..TEXTS {
        let version = pieces(&mut generator, &mut rng, &RUNS);
        let shape = major(&version).is_some();
        let one = version.split(|&byte| byte == b'.').next() == Some(b"1");
        let label = format!("{} shape, {} major 1", yes_or_no(shape), yes_or_no(one));
        let proved = (
            against::version_shape(&version),
            against::major_one(&version),
        );
        tally.compare(label, proved, (shape, one), || hex(&version));
    }
    tally.report(4);
}

/// A text, and one like it.
fn pair(generator: &mut Generator, rng: &mut Rng) -> (Vec<u8>, Vec<u8>) {
    let a = rng.bytes(40);
    let mut b = a.clone();
    if rng.one_in(2) {
        generator.damage(&mut b);
    }
    (a, b)
}

#[test]
fn order() {
    let mut tally = Tally::of("order");
    let mut generator = Generator::new(seed());
    let mut rng = Rng::new(!seed());
    for _ in 0..TEXTS {
        let (a, b) = pair(&mut generator, &mut rng);
        let (label, number) = match a.len().cmp(&b.len()).then(a.cmp(&b)) {
            Ordering::Less => ("before", 1),
            Ordering::Greater => ("after", 2),
            Ordering::Equal => ("equal", 0),
        };
        let proved = (against::order(&a, &b), against::same(&a, &b));
        tally.compare(label, proved, (number, number == 0), || {
            format!("{} {}", hex(&a), hex(&b))
        });
    }
    tally.report(3);
}

#[test]
fn magic() {
    let mut tally = Tally::of("magic");
    let mut generator = Generator::new(seed());
    for _ in 0..TEXTS {
        let mut part = MAGIC.to_vec();
        generator.damage(&mut part);
        let second = part == MAGIC;
        tally.compare(yes_or_no(second), against::is_magic(&part), second, || {
            hex(&part)
        });
    }
    tally.report(2);
}

/// Names in a buffer: for each the bytes left at its start and its length, now and then outside.
#[derive(Debug)]
struct Names {
    bytes: Vec<u8>,
    left: Vec<usize>,
    size: Vec<usize>,
    count: usize,
}

fn names(rng: &mut Rng) -> Names {
    let count = *rng.pick(&[2, 5, 15, 16, 17, 40]);
    let count = if rng.one_in(500) { 3_000 } else { count };
    // The more letters, and the longer, the fewer names are equal.
    let letters = *rng.pick(&[2, 26, 255]);
    let room = count * rng.pick(&[2, 20, 200]);
    let mut bytes = rng.bytes(room);
    bytes.iter_mut().for_each(|byte| *byte %= letters);
    let shortest = *rng.pick(&[0, 6, 20]);
    let listed = if rng.one_in(20) { count - 1 } else { count };
    Names {
        left: (0..listed).map(|_| rng.index(bytes.len() + 2)).collect(),
        size: (0..listed).map(|_| shortest + rng.index(20)).collect(),
        bytes,
        count,
    }
}

impl Names {
    fn name(&self, index: usize) -> &[u8] {
        let left = self.left.get(index).copied().unwrap_or(0);
        let size = self.size.get(index).copied().unwrap_or(0);
        let start = self.bytes.len().saturating_sub(left);
        &self.bytes[start..self.bytes.len().min(start + size)]
    }
}

#[test]
fn no_name_twice() {
    let mut tally = Tally::of("no name twice");
    let mut rng = Rng::new(seed());
    for _ in 0..LISTS {
        let names = names(&mut rng);
        let mut seen = HashSet::new();
        let second = (0..names.count).all(|index| seen.insert(names.name(index)));
        let proved = against::no_twice(&names.bytes, &names.left, &names.size, names.count);
        let label = format!("{} of {}", yes_or_no(second), names.count);
        tally.compare(label, proved, second, || format!("{names:?}"));
    }
    tally.report(14);
}
