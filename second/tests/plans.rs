//! Placement plans (Req 02): the plan's verdict, the file under it, the order of refusals, 01's own placement as one plan.

use second::generate::{Generator, PlannedSet, RowSet};
use second::planned::fault;
use second::refusal::{BIG, COUNT, PLAN, ROOM, ROW, TWICE};
use second::columns::{COMPONENT_ROW, OBJECT_ROW};
use second::rows::{read, split};
use second::writer::{offsets, Written};

const LIMIT: u64 = 1 << 40;

#[test]
fn rows_break_rules_by_themselves() {
    assert_eq!(fault(&[8, 8], &[64, 128], LIMIT), None);
    assert_eq!(fault(&[8, 8], &[128, 64], LIMIT), None);
    for offset in [0, 1, 63, 65, 96, 100, LIMIT, u64::MAX, u64::MAX - 63] {
        assert_eq!(fault(&[8, 8], &[64, offset], LIMIT), Some(1), "{offset}");
        assert_eq!(fault(&[8, 8], &[offset, 64], LIMIT), Some(0), "{offset}");
    }
}

#[test]
fn every_end_is_at_most_the_ceiling() {
    assert_eq!(fault(&[8], &[64], 72), None);
    assert_eq!(fault(&[8], &[64], 71), Some(0));
    // empty ones too
    assert_eq!(fault(&[0], &[128], 128), None);
    assert_eq!(fault(&[0], &[128], 127), Some(0));
    assert_eq!(fault(&[0], &[64], 0), Some(0));
    assert_eq!(fault(&[64], &[LIMIT - 64], LIMIT), None);
    assert_eq!(fault(&[65], &[LIMIT - 64], LIMIT), Some(0));
    assert_eq!(fault(&[u64::MAX], &[64], LIMIT), Some(0));
}

#[test]
fn the_ceiling_is_tested_first_even_without_rows() {
    assert_eq!(fault(&[], &[], LIMIT), None);
    assert_eq!(fault(&[], &[], 0), None);
    assert_eq!(fault(&[], &[], LIMIT + 1), Some(0));
    assert_eq!(fault(&[8, 8], &[64, 1], LIMIT + 1), Some(0));
    assert_eq!(fault(&[8, 8], &[64, 1], u64::MAX), Some(0));
}

#[test]
fn two_ranges_share_a_byte() {
    assert_eq!(fault(&[65, 8], &[64, 128], LIMIT), Some(1));
    assert_eq!(fault(&[64, 8], &[64, 128], LIMIT), None);
    assert_eq!(fault(&[8, 65], &[128, 64], LIMIT), Some(1));
    assert_eq!(fault(&[8, 64], &[128, 64], LIMIT), None);
    assert_eq!(fault(&[8, 8], &[64, 64], LIMIT), Some(1));
    // the second of three inside the first; the third is the first row to share with an earlier one
    assert_eq!(fault(&[8, 8, 1000], &[512, 1024, 64], LIMIT), Some(2));
    assert_eq!(fault(&[1000, 8, 8], &[64, 2048, 128], LIMIT), Some(2));
    // empty ones share nothing, wherever they lie
    assert_eq!(fault(&[200, 0, 0, 8], &[64, 128, 128, 320], LIMIT), None);
    assert_eq!(fault(&[0, 200, 0], &[128, 64, 64], LIMIT), None);
}

#[test]
fn offsets_lacking_and_left_over() {
    assert_eq!(fault(&[8, 8], &[64], LIMIT), Some(1));
    assert_eq!(fault(&[8, 8], &[], LIMIT), Some(0));
    assert_eq!(fault(&[8], &[64, 1], LIMIT), Some(1));
    assert_eq!(fault(&[], &[64], LIMIT), Some(0));
    assert_eq!(fault(&[8, 8], &[64, 65, 192], LIMIT), Some(1));
    assert_eq!(fault(&[8, 8], &[64, 128, 192], LIMIT), Some(2));
}

/// One object, "o", of a format of our own, with these blobs of the buffer.
fn set(blobs: &[(u64, u64)]) -> RowSet {
    let mut rows = vec![0; OBJECT_ROW];
    rows[1] = 1;
    rows[15] = blobs.len() as u64;
    for (at, &(place, length)) in blobs.iter().enumerate() {
        let mut row = [0; COMPONENT_ROW];
        row[..7].copy_from_slice(&[1 + at as u64, 1, 11, 0, 0, place, length]);
        rows.extend(row);
    }
    RowSet {
        rows,
        objects: 1,
        components: blobs.len() as u64,
        attributes_place: 0,
        attributes_length: 0,
        buffer: b"oabcdefghijklmnopqrstuvwxyz".to_vec(),
    }
}

fn refused(number: u8, object: u64) -> Written {
    Written {
        number,
        object,
        ..Written::default()
    }
}

#[test]
fn a_falling_plan_lays_the_blobs_at_its_offsets() {
    let planned = PlannedSet {
        set: set(&[(1, 3), (4, 2), (9, 0)]),
        plan: vec![256, 64, 320],
        ceiling: 320,
    };
    let mut out = vec![0xA5; 1000];
    let written = planned.write(&mut out);
    assert_eq!(written.number, 0);
    let file = &out[..written.length as usize];
    assert_eq!(&file[..8], b"ZTEN1000");
    assert_eq!(&file[64..66], b"de");
    assert_eq!(&file[256..259], b"abc");
    let zeros = (8..64).chain(66..256).chain(259..320);
    assert!(zeros.into_iter().all(|at| file[at] == 0));
    assert!(out[written.length as usize..].iter().all(|&b| b == 0xA5));
    let mut table = vec![0; 100];
    let answer = read(file, &mut table);
    assert_eq!((answer.number, answer.manifest_start), (0, 320));
    let (_, components) = split(&table, 1, 3).unwrap();
    let places: Vec<u64> = components.iter().map(|row| row.blob.place).collect();
    assert_eq!(places, planned.plan);
    // ROOM by one byte
    let mut short = vec![0xA5; written.length as usize - 1];
    assert_eq!(planned.write(&mut short), refused(ROOM, 0));
    assert!(short.iter().all(|&b| b == 0xA5));
}

#[test]
fn no_row_puts_the_manifest_at_8() {
    let planned = PlannedSet {
        set: RowSet {
            objects: 0,
            rows: Vec::new(),
            ..set(&[])
        },
        plan: Vec::new(),
        ceiling: 0,
    };
    let mut out = [0; 48];
    assert_eq!(planned.write(&mut out).length, 48);
    assert_eq!(&out, second::cases::NO_OBJECTS);
}

#[test]
fn row_then_plan_then_the_readers_refusal() {
    let mut planned = PlannedSet {
        set: set(&[(1, 3), (4, 2)]),
        plan: vec![64, 64],
        ceiling: LIMIT,
    };
    // both components are called "a"
    planned.set.rows[OBJECT_ROW + COMPONENT_ROW] = 1;
    let mut out = [0xA5; 1000];
    assert_eq!(planned.write(&mut out), refused(PLAN, 1));
    planned.ceiling += 1;
    assert_eq!(planned.write(&mut out), refused(PLAN, 0));
    planned.ceiling -= 1;
    planned.plan = vec![64, 128];
    assert_eq!(planned.write(&mut out), refused(TWICE, 0));
    planned.plan = vec![64, 64];
    planned.set.rows[OBJECT_ROW + 2] = 13;
    assert_eq!(planned.write(&mut out), refused(ROW, 0));
    assert_eq!(out, [0xA5; 1000]);
}

#[test]
fn generated_plans_reach_every_answer_and_read_back() {
    let mut generator = Generator::new(3);
    let mut seen = [0usize; 28];
    let mut falling = 0;
    let mut rows_at_fault = [0usize; 4];
    let mut table = vec![0; 220_000];
    for _ in 0..30_000 {
        let planned = generator.next_planned();
        let mut out = vec![0xA5; 1 << 16];
        let written = planned.write(&mut out);
        seen[usize::from(written.number)] += 1;
        if written.number == PLAN {
            assert_eq!((written.component, written.length), (0, 0));
            rows_at_fault[written.object.min(3) as usize] += 1;
        }
        let length = written.length as usize;
        assert!(out[length..].iter().all(|&b| b == 0xA5));
        if written.number != 0 {
            continue;
        }
        let answer = read(&out[..length], &mut table);
        assert_eq!(answer.number, 0);
        let set = &planned.set;
        let (_, given) = split(&set.rows, set.objects, set.components).unwrap();
        let (_, back) = split(&table, answer.objects, answer.components).unwrap();
        for ((row, back), &offset) in given.iter().zip(&back).zip(&planned.plan) {
            assert_eq!(back.blob.place, offset);
            assert_eq!(back.blob.of(&out), row.blob.of(&set.buffer));
        }
        falling += usize::from(planned.plan.windows(2).any(|pair| pair[0] > pair[1]));
        // every byte from 8 to the manifest that is in no blob is 0
        let inside = |at: usize| {
            back.iter().any(|row| {
                (row.blob.place..row.blob.place + row.blob.length).contains(&(at as u64))
            })
        };
        assert!((8..answer.manifest_start as usize).all(|at| out[at] == 0 || inside(at)));
    }
    for number in [0, ROW, PLAN, ROOM, TWICE] {
        assert!(seen[usize::from(number)] > 50, "{number}");
    }
    // the reader's: 17 components
    assert!(seen[usize::from(COUNT)] > 0);
    assert!(falling > 500);
    assert!(rows_at_fault.iter().all(|&count| count > 50));
}

#[test]
fn the_writers_own_placement_is_one_accepted_plan() {
    let mut generator = Generator::new(4);
    let mut accepted = 0;
    for _ in 0..20_000 {
        let set = generator.next_rows();
        let mut plain = vec![0xA5; 1 << 16];
        let written = set.write(&mut plain);
        let lengths = split(&set.rows, set.objects, set.components)
            .map(|(_, rows)| rows.iter().map(|row| row.blob.length).collect::<Vec<_>>());
        let Some(plan) = lengths.and_then(|lengths| offsets(lengths.into_iter())) else {
            continue;
        };
        let planned = PlannedSet {
            set,
            plan,
            ceiling: LIMIT,
        };
        let mut laid = vec![0xA5; 1 << 16];
        assert_eq!(planned.write(&mut laid), written);
        assert_eq!(laid, plain);
        accepted += usize::from(written.number == 0);
    }
    assert!(accepted > 5_000);
}

/// The same manifest is one byte longer with an offset of 256 than with 64.
#[test]
fn a_plan_can_be_big_where_the_writer_isnt() {
    const SIZE: usize = 16_777_216;
    let mut set = set(&[(1, 3)]);
    let others = "..version.1.2.0.objects...o..shape..format".len()
        + "....components..a..dtype..u8.offset...length..".len();
    let place = set.buffer.len() as u64;
    // Found by trying: the longest format that the writer doesn't refuse.
    set.buffer.resize(place as usize + SIZE, b'f');
    let number = |set: &mut RowSet, length: usize| {
        set.rows[11..13].copy_from_slice(&[place, length as u64]);
        set.write(&mut []).number
    };
    let tried = SIZE - others - 100..SIZE;
    let length = tried
        .into_iter()
        .rfind(|&length| number(&mut set, length) == ROOM);
    number(&mut set, length.unwrap());
    let mut planned = PlannedSet {
        set,
        plan: vec![64],
        ceiling: LIMIT,
    };
    assert_eq!(planned.write(&mut []), refused(ROOM, 0));
    planned.plan = vec![256];
    assert_eq!(planned.write(&mut []), refused(BIG, 0));
    planned.plan = vec![255];
    assert_eq!(planned.write(&mut []), refused(PLAN, 0));
}
