//! Findings, the account of a file's bytes, and the decimal text of an f32: the calls against the second program, and against what the C library prints.

use against::tally::{rounds, seed, Tally};
use against::{beside, Bytes, Found, Panelled};
use second::generate::{nth_file, nth_file_as};
use second::layout::Layout;
use second::{columns, decimal, findings};

/// Patterns at every edge: both zeros, the denormals' ends, ones, the largest, both infinities, NaNs of both signs and several payloads.
const EDGES: [u32; 20] = [
    0, 0x8000_0000, 1, 0x8000_0001, 0x007F_FFFF, 0x807F_FFFF, 0x0080_0000, 0x8080_0000, 0x3F80_0000, 0xBF80_0000, 0x7F7F_FFFF, 0xFF7F_FFFF, 0x7F80_0000,
    0xFF80_0000, 0x7F80_0001, 0xFF80_0001, 0x7FC0_0000, 0xFFC0_0000, 0x7FFF_FFFF, 0xFFFF_FFFF,
];
const FILES: u64 = 100_000;
const BLOBS: u64 = 2_000_000;
const PATTERNS: u64 = 10_000_000;

fn next(state: &mut u64) -> u64 {
    *state = state.wrapping_mul(6364136223846793005).wrapping_add(1442695040888963407);
    *state >> 32
}

fn second_find(file: &[u8], table: &[u64], objects: u64, components: u64, index: u64) -> Found {
    let [number, finding, smallest, largest, nans] = findings::find(file, table, objects, components, index).numbers();
    Found { number, finding, smallest, largest, nans }
}

fn label(found: &Found) -> &'static str {
    match (found.number, found.finding) {
        (0, 0) => "none due",
        (0, 1) => "empty",
        (0, 2) => "only NaNs",
        (0, _) => "numbers",
        _ => "INDEX",
    }
}

/// One component's row, the table of a file that is its blob.
fn row(offset: u64, length: u64) -> Vec<u64> {
    vec![0, 0, 1, 0, 0, offset, length, 0, 0, 0, 0, 0]
}

#[test]
fn blobs() {
    let mut tally = Tally::of("findings");
    let mut state = seed();
    for round in 0..rounds(BLOBS) {
        let length = round % 41;
        let mut file: Vec<u8> = (0..12)
            .flat_map(|_| match next(&mut state) % 4 {
                0 => next(&mut state) as u32,
                _ => EDGES[next(&mut state) as usize % EDGES.len()],
            }
            .to_le_bytes())
            .collect();
        let offset = next(&mut state) % (file.len() as u64 - length + 1);
        file.truncate(48);
        let mut table = row(offset, length);
        if next(&mut state) % 8 == 0 {
            let column = [2, 3, 4, 5, 6][next(&mut state) as usize % 5];
            table[column] = [0, 1, 4, 47, 48, 49, u64::MAX][next(&mut state) as usize % 7];
        }
        let second = second_find(&file, &table, 0, 1, 0);
        let proved = against::find(&file, &table, 0, 1, 0);
        tally.compare(label(&second), proved, second, || format!("{file:?} {table:?}"));
    }
    tally.report(5);
}

/// The first met is kept, as smallest and as largest.
#[test]
fn zeros() {
    for (first, then) in [(0u32, 0x8000_0000u32), (0x8000_0000, 0)] {
        let file: Vec<u8> = [first, then].iter().flat_map(|bits| bits.to_le_bytes()).collect();
        let kept = u64::from(first);
        assert_eq!(against::find(&file, &row(0, 8), 0, 1, 0), Found { number: 0, finding: 3, smallest: kept, largest: kept, nans: 0 });
    }
}

#[test]
fn files() {
    let mut tally = Tally::of("findings of files");
    let mut state = seed();
    let mut table = vec![0; columns::MOST];
    let mut other = nth_file(seed(), 0);
    for index in 0..rounds(FILES) {
        let file = nth_file(seed(), index);
        let a = beside::read(&file, &mut table);
        let room = columns::numbers(a.objects as usize, a.components as usize);
        for turn in 0..6 {
            let (objects, components, at) = match turn {
                0..=3 => (a.objects, a.components, turn),
                4 => (next(&mut state) % 4, a.components + 1, next(&mut state) % 4),
                _ => (u64::MAX / 16 + next(&mut state) % 3, u64::MAX, next(&mut state) % 4),
            };
            for bytes in [&file, &other] {
                let second = second_find(bytes, &table[..room], objects, components, at);
                let proved = against::find(bytes, &table[..room], objects, components, at);
                // Blobs of NaNs alone are rare among files.
                let label = label(&second).replace("only NaNs", "numbers");
                tally.compare(&label, proved, second, || format!("seed {}, file {index}: {objects} {components} {at}", seed()));
            }
        }
        other = file;
    }
    tally.report(4);
}

/// In both layouts, with a room that suffices and one that is a number short; what is lent ends as zeros.
#[test]
fn accounts() {
    let mut tally = Tally::of("accounts");
    for index in 0..rounds(FILES) {
        for (layout, number) in [(Layout::Current, 0), (Layout::First, 1)] {
            let file = nth_file_as(layout, seed(), index);
            let most = findings::account(number, &file, &mut vec![7; columns::MOST]);
            let exact = against::read_as(number, &file, &mut vec![0; columns::MOST]);
            let room = columns::numbers(exact.objects as usize, exact.components as usize);
            for room in [room, room.saturating_sub(1)] {
                let mut lent = vec![7; room];
                let mut also = vec![7; room];
                let [number_, object, component, frame, manifest, inside, between] = findings::account(number, &file, &mut also).numbers();
                let second = Bytes { number: number_, object, component, frame, manifest, inside, between };
                let proved = against::account(number, &file, &mut lent);
                assert!(lent.iter().all(|&n| n == 0) && lent == also);
                if proved.number == 0 {
                    assert_eq!(proved.frame + proved.manifest + proved.inside + proved.between, file.len() as u64);
                    assert_eq!(most.numbers()[3..], [proved.frame, proved.manifest, proved.inside, proved.between]);
                }
                let label = match second.number {
                    0 => "accounted",
                    24 => "ROOM",
                    _ => "refused",
                };
                tally.compare(label, proved, second, || format!("seed {}, file {index}, layout {number}, room {room}", seed()));
            }
        }
    }
    tally.report(3);
}

/// In both layouts; rooms that suffice, and each a number or a byte short. The text is untouched on refusal, and what is lent to work in ends as zeros.
#[test]
fn panels() {
    let mut tally = Tally::of("panels");
    for index in 0..rounds(FILES) {
        for (layout, number) in [(Layout::Current, 0), (Layout::First, 1)] {
            let file = nth_file_as(layout, seed(), index);
            let read = against::read_as(number, &file, &mut vec![0; columns::MOST]);
            let room = columns::numbers(read.objects as usize, read.components as usize);
            let full = findings::panel(number, &file, &mut vec![0; room], &mut vec![0; 1 << 16]).numbers()[3] as usize;
            for (room, long) in [(room, full), (room.saturating_sub(1), full), (room, full.saturating_sub(1))] {
                let (mut lent, mut also) = (vec![7; room], vec![7; room]);
                let (mut text, mut second_text) = (vec![b'?'; long], vec![b'?'; long]);
                let [n, object, component, length] = findings::panel(number, &file, &mut also, &mut second_text).numbers();
                let second = Panelled { number: n, object, component, length };
                let proved = against::panel(number, &file, &mut lent, &mut text);
                assert!(lent.iter().all(|&n| n == 0));
                assert_eq!(String::from_utf8_lossy(&text), String::from_utf8_lossy(&second_text), "seed {}, file {index}", seed());
                let label = match second.number {
                    0 => "shown",
                    24 => "ROOM",
                    _ => "refused",
                };
                tally.compare(label, proved, second, || format!("seed {}, file {index}, layout {number}, room {room}, text {long}", seed()));
            }
        }
    }
    tally.report(3);
}

/// Every exponent of both signs with the fraction's edges, then patterns by chance.
#[test]
fn decimals() {
    let mut tally = Tally::of("decimal text");
    let mut state = seed();
    let edges = (0..512u32).flat_map(|top| [0, 1, 2, 0x3F_FFFF, 0x40_0000, 0x40_0001, 0x7F_FFFE, 0x7F_FFFF].map(|low| top << 23 | low));
    let chance = (0..rounds(PATTERNS)).map(|_| next(&mut state) as u32);
    for bits in EDGES.into_iter().chain(edges).chain(chance) {
        let printed = against::printed(bits);
        let label = match printed.trim_start_matches('-').as_bytes()[0] {
            b'n' => "nan",
            b'i' => "inf",
            _ => "a number",
        };
        if bits % 64 == 0 {
            tally.compare(label, decimal::text(bits), printed.clone(), || format!("{bits:#010x}, the second program beside the C library"));
        }
        tally.compare(label, against::float(bits), printed, || format!("{bits:#010x}"));
    }
    tally.report(3);
}

/// Nine digits name one f32 only.
#[test]
fn neighbours() {
    let mut state = seed();
    for round in 0..rounds(400_000) {
        let bits = if round < 512 { (round as u32) << 23 } else { next(&mut state) as u32 };
        if f32::from_bits(bits).is_nan() {
            continue;
        }
        let text = against::float(bits);
        assert_eq!(text.parse::<f32>().map(f32::to_bits), Ok(bits), "{text}");
    }
}
