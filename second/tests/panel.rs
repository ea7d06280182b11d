//! The panel (Req 01): findings, the account of bytes, the decimal form of a number, the panel's text.

use second::cases::{one_dense_object, NO_OBJECTS};
use second::compose::{component, named, object, root, with};
use second::decimal;
use second::encode::Item;
use second::findings::{account, find, finding, panel, Account, Finding, Found, Panel, MOST_ROOM};
use second::frame;
use second::generate::rng::Rng;
use second::generate::Generator;
use second::layout::Layout;
use second::refusal::{INDEX, ROOM, SHORT};
use second::columns::{COMPONENT_ROW, OBJECT_ROW};
use second::rows::{read_as, split, Part};

fn found(numbers: &[f32]) -> Finding {
    let bytes: Vec<u8> = numbers.iter().flat_map(|n| n.to_le_bytes()).collect();
    finding(&bytes)
}

fn span(smallest: f32, largest: f32, nans: u64) -> Finding {
    Finding::Span {
        smallest: smallest.to_bits(),
        largest: largest.to_bits(),
        nans,
    }
}

#[test]
fn three_findings() {
    const NAN: f32 = f32::NAN;
    const INF: f32 = f32::INFINITY;
    assert_eq!(found(&[]), Finding::Empty);
    assert_eq!(found(&[NAN, -NAN, NAN]), Finding::OnlyNan(3));
    assert_eq!(found(&[NAN, 1.0, NAN, -2.5, 0.0]), span(-2.5, 1.0, 2));
    // infinities count as numbers
    assert_eq!(found(&[INF, NAN]), span(INF, INF, 1));
    assert_eq!(found(&[INF, 3.0, -INF]), span(-INF, INF, 0));
    assert_eq!(found(&[3e-45, -3e-45]), span(-3e-45, 3e-45, 0));
}

#[test]
fn of_equal_ones_the_first_met_is_kept() {
    assert_eq!(found(&[0.0, -0.0]), span(0.0, 0.0, 0));
    assert_eq!(found(&[-0.0, 0.0]), span(-0.0, -0.0, 0));
    assert_eq!(found(&[1.0, 0.0, -0.0]), span(0.0, 1.0, 0));
    assert_eq!(found(&[-1.0, -0.0, 0.0]), span(-1.0, -0.0, 0));
    assert_eq!(found(&[f32::NAN, 0.0, -0.0]), span(0.0, 0.0, 1));
}

/// A table with one component row of these numbers.
fn row(code: u64, logical: [u64; 2], blob: [u64; 2]) -> Vec<u64> {
    let mut row = vec![u64::MAX; COMPONENT_ROW];
    row[2..7].copy_from_slice(&[code, logical[0], logical[1], blob[0], blob[1]]);
    row
}

#[test]
fn where_a_finding_is_due() {
    let file = [[0; 4], 1.5f32.to_le_bytes(), (-2f32).to_le_bytes()].concat();
    let find = |code, logical, blob| find(&file, &row(code, logical, blob), 0, 1, 0);
    let numbers = Found {
        finding: 3,
        smallest: (-2f32).to_bits().into(),
        largest: 1.5f32.to_bits().into(),
        ..Found::default()
    };
    assert_eq!(find(1, [0, 0], [4, 8]), numbers);
    let empty = Found {
        finding: 1,
        ..Found::default()
    };
    assert_eq!(find(1, [0, 0], [12, 0]), empty);
    for code in [0, 2, 9, 12, 13, u64::MAX] {
        assert_eq!(find(code, [0, 0], [4, 8]), Found::default());
    }
    for logical in [[1, 0], [0, 1], [3, 3]] {
        assert_eq!(find(1, logical, [4, 8]), Found::default());
    }
    for length in [1, 2, 3, 5, 7] {
        assert_eq!(find(1, [0, 0], [4, length]), Found::default());
    }
    let index = Found {
        number: INDEX.into(),
        ..Found::default()
    };
    assert_eq!(find(1, [0, 0], [4, 9]), index);
    assert_eq!(find(13, [0, 0], [13, 0]), index);
    assert_eq!(find(1, [0, 0], [u64::MAX, 4]), index);
    let table = row(1, [0, 0], [4, 8]);
    let of = |table: &[u64], objects, components, index| {
        second::findings::find(&file, table, objects, components, index)
    };
    assert_eq!(of(&table, 0, 1, 0), numbers);
    assert_eq!(of(&table, 0, 1, 1), index);
    assert_eq!(of(&table, 1, 1, 0), index);
    assert_eq!(of(&table[1..], 0, 1, 0), index);
}

fn bytes(frame: u64, manifest: u64, inside: u64, between: u64) -> Account {
    Account {
        frame,
        manifest,
        inside,
        between,
        ..Account::default()
    }
}

#[test]
fn the_account_of_01s_cases() {
    let mut work = vec![5; OBJECT_ROW + COMPONENT_ROW];
    assert_eq!(account(0, NO_OBJECTS, &mut []), bytes(24, 24, 0, 0));
    assert_eq!(
        account(0, &one_dense_object(), &mut work),
        bytes(24, 93, 8, 56)
    );
    assert!(work.iter().all(|&n| n == 0));
    let mut short = vec![5; OBJECT_ROW + COMPONENT_ROW - 1];
    let room = Account {
        number: ROOM.into(),
        ..Account::default()
    };
    assert_eq!(account(0, &one_dense_object(), &mut short), room);
    assert!(short.iter().all(|&n| n == 0));
    let mut work = [5; 3];
    assert_eq!(account(0, &[], &mut work).number, SHORT.into());
    assert_eq!(work, [0; 3]);
}

#[test]
fn overlaps_count_once() {
    let parts = named([
        ("a", component("u8", 64, 100)),
        ("b", component("u8", 128, 10)),
        ("c", component("u8", 128, 70)),
        ("d", component("u8", 320, 5)),
        ("e", component("u8", 320, 0)),
        ("f", component("u8", 384, 0)),
    ]);
    let manifest = root(named([("w", object(&[], "x", parts))])).shortest();
    let file = frame::assemble(&[0; 400 - 8], &manifest);
    let expected = bytes(24, manifest.len() as u64, 134 + 5, 392 - 139);
    assert_eq!(account(0, &file, &mut [0; 200]), expected);
}

/// C's form of Rust's own: the exponent gets a sign and at least two digits.
fn reference(bits: u32) -> String {
    let number = f32::from_bits(bits);
    if number.is_infinite() {
        return format!("{number}");
    }
    let text = format!("{number:.8e}");
    let (mantissa, exponent) = text.split_once('e').unwrap();
    let exponent: i32 = exponent.parse().unwrap();
    let sign = if exponent < 0 { '-' } else { '+' };
    format!("{mantissa}e{sign}{:02}", exponent.abs())
}

#[test]
fn decimals_as_the_page_shows_them() {
    for (number, text) in [
        (-1.25, "-1.25000000e+00"),
        (f32::INFINITY, "inf"),
        (f32::NEG_INFINITY, "-inf"),
        (0.0, "0.00000000e+00"),
        (-0.0, "-0.00000000e+00"),
        (1e-45, "1.40129846e-45"),
        (f32::MAX, "3.40282347e+38"),
        (1234567.125, "1.23456712e+06"),
        (1234567.375, "1.23456738e+06"),
        (0.1, "1.00000001e-01"),
        (1e10, "1.00000000e+10"),
    ] {
        assert_eq!(decimal::text(f32::to_bits(number)), text);
    }
}

#[test]
fn decimals_are_rusts_own_and_name_one_number() {
    let mut rng = Rng::new(41);
    let check = |bits: u32| {
        if f32::from_bits(bits).is_nan() {
            return;
        }
        let text = decimal::text(bits);
        assert_eq!(text, reference(bits), "{bits:x}");
        assert_eq!(text.parse::<f32>().unwrap().to_bits(), bits);
    };
    for exponent in 0..256u32 {
        for fraction in [0, 1, 2, 3, 0x3F_FFFF, 0x40_0000, 0x7F_FFFE, 0x7F_FFFF] {
            check(exponent << 23 | fraction);
            check(1 << 31 | exponent << 23 | fraction);
        }
        for _ in 0..400 {
            check(exponent << 23 | rng.below(1 << 23) as u32);
        }
    }
    // ten digits that end in 5: ties
    for _ in 0..20_000 {
        let eighths = (1 << 23) + rng.below(1 << 23) as u32;
        check((eighths as f32 / 8.0).to_bits());
    }
    for _ in 0..100_000 {
        check(rng.number() as u32);
    }
}

/// The panel with ample room.
fn shown(layout: u64, file: &[u8]) -> String {
    let (mut work, mut text) = (vec![9; 2_000], vec![0xA5; 1 << 16]);
    let answer = panel(layout, file, &mut work, &mut text);
    assert_eq!((answer.number, answer.object, answer.component), (0, 0, 0));
    assert!(work.iter().all(|&n| n == 0));
    let (shown, beyond) = text.split_at(answer.length as usize);
    assert!(beyond.iter().all(|&byte| byte == 0xA5));
    String::from_utf8(shown.to_vec()).unwrap()
}

#[test]
fn the_panels_text() {
    assert_eq!(
        shown(0, NO_OBJECTS),
        "objects 0 components 0\nbytes frame 24 manifest 24 inside 0 between 0\n"
    );
    let typed = with(component("f32", 64, 8), "type", Item::text(""));
    let parts = named([
        ("a", component("f32", 64, 8)),
        ("b", component("f32", 128, 4)),
        ("c", component("f32", 128, 0)),
        ("d", component("f32", 64, 3)),
        ("e", component("u32", 64, 8)),
        ("f", typed),
    ]);
    let manifest = root(named([("blob ", object(&[], "x", parts))])).shortest();
    let mut blobs = vec![0; 124];
    blobs[56..60].copy_from_slice(&(-1.25f32).to_le_bytes());
    blobs[60..64].copy_from_slice(&f32::INFINITY.to_le_bytes());
    blobs[120..].copy_from_slice(&f32::NAN.to_le_bytes());
    let file = frame::assemble(&blobs, &manifest);
    let lines = format!(
        "objects 1 components 6\nobject blob\\20 x\n\
        blob a f32 64 8 min -1.25000000e+00 max inf nan 0\n\
        blob b f32 128 4 nan 1\nblob c f32 128 0 empty\nblob d f32 64 3\nblob e u32 64 8\n\
        blob f f32 64 8\nbytes frame 24 manifest {} inside 12 between 112\n",
        manifest.len()
    );
    assert_eq!(shown(0, &file), lines);
    // rooms
    let rows = OBJECT_ROW + 6 * COMPONENT_ROW;
    let room = Panel {
        number: ROOM.into(),
        ..Panel::default()
    };
    let asked = |work: usize, text: usize| {
        let (mut work, mut text) = (vec![1; work], vec![2; text]);
        let answer = panel(0, &file, &mut work, &mut text);
        assert!(work.iter().all(|&n| n == 0));
        assert!(answer.number == 0 || text.iter().all(|&byte| byte == 2));
        answer
    };
    assert_eq!(asked(rows, lines.len()).length, lines.len() as u64);
    assert_eq!(asked(rows - 1, lines.len()), room);
    assert_eq!(asked(rows, lines.len() - 1), room);
    let refused = panel(0, &file[1..], &mut [], &mut []);
    assert_eq!((refused.number, refused.length), (2, 0));
}

#[test]
fn generated_files_add_up() {
    let mut generator = Generator::new(42);
    let mut seen = [0usize; 4];
    for index in 0..10_000 {
        let layout = Layout::of(index % 2);
        let file = generator.next_floats(layout);
        let mut table = vec![0; 400];
        let answer = read_as(layout.number(), &file, &mut table);
        assert_eq!(answer.number, 0);
        let account = account(layout.number(), &file, &mut vec![1; 400]);
        let sum = account.frame + account.manifest + account.inside + account.between;
        assert_eq!((account.number, sum), (0, file.len() as u64));
        assert_eq!(account.frame, layout.frame() as u64);
        let (_, rows) = split(&table, answer.objects, answer.components).unwrap();
        let covered = |at: u64| {
            rows.iter()
                .any(|row| (row.blob.place..row.blob.place + row.blob.length).contains(&at))
        };
        let inside = (0..file.len() as u64).filter(|&at| covered(at)).count();
        assert_eq!(account.inside, inside as u64);
        let text = shown(layout.number(), &file);
        assert_eq!(
            text.lines().count() as u64,
            2 + answer.objects + answer.components
        );
        for (at, row) in rows.iter().enumerate() {
            let found = find(&file, &table, answer.objects, answer.components, at as u64);
            seen[found.finding as usize] += 1;
            let due = row.dtype == 1 && row.logical == Part::default() && row.blob.length % 4 == 0;
            assert_eq!(found.finding != 0, due);
            assert!(found.nans <= row.blob.length / 4);
        }
    }
    assert!(seen.iter().all(|&count| count > 300), "{seen:?}");
    assert_eq!(MOST_ROOM, 1_024 * OBJECT_ROW + 16_384 * COMPONENT_ROW);
}
