//! The thirteen sound files of document 01 and their neighbours.

use second::cases::{self, dense_manifest, Case, NO_OBJECTS as CASE_1};
use second::columns::{numbers, OBJECT_ROW};
use second::compose::{component, named, root};
use second::frame;
use second::judge::verdict;
use second::listing::program_text;
use second::rows::{read, Answer};
use second::writer::{write, Written};

const CASE_2_MANIFEST: &[u8; 93] = b"\xA2\x67version\x651.2.0\x67objects\xA1\x61w\
    \xA3\x65shape\x81\x02\x66format\x65dense\x6Acomponents\xA1\x64data\
    \xA3\x65dtype\x63f32\x66offset\x18\x40\x66length\x08";

fn written(length: u64) -> Written {
    Written {
        length,
        ..Written::default()
    }
}

#[test]
fn case_1_no_objects() {
    let mut out = [0xA5; 50];
    assert_eq!(write(&[], 0, 0, 0, 0, &[], &mut out), written(48));
    assert_eq!(&out[..48], CASE_1);
    assert_eq!(&out[48..], [0xA5; 2]);
    let accepted = Answer {
        manifest_start: 8,
        ..Answer::default()
    };
    assert_eq!(read(CASE_1, &mut []), accepted);
    assert_eq!(program_text(CASE_1), b"objects 0 components 0\n");
}

#[test]
fn case_2_one_dense_object() {
    // The buffer holds "w", "dense", "data" and the blob; the rows point into it.
    let buffer = b"wdensedata12345678";
    let rows = [
        0, 1, 1, 2, 7, 7, 7, 7, 7, 7, 7, 1, 5, 0, 0,
        1, // object: unused dimensions aren't looked at
        6, 4, 1, 0, 0, 10, 8, 0, 0, 0, 7, 7, // nor is where the component's map stands
    ];
    let mut out = [0xA5; 181];
    assert_eq!(write(&rows, 1, 1, 0, 0, buffer, &mut out), written(181));
    assert_eq!(&out[..8], b"ZTEN1000");
    assert_eq!(&out[8..64], [0; 56]);
    assert_eq!(&out[64..72], b"12345678");
    assert_eq!(&out[72..165], CASE_2_MANIFEST);
    assert_eq!(&out[165..], b"\x5D\0\0\0\0\0\0\0ZTEN1000");
    assert_eq!(
        dense_manifest(&[2], component("f32", 64, 8)),
        CASE_2_MANIFEST
    );

    let mut table = [9; numbers(1, 1) + 4];
    let accepted = Answer {
        objects: 1,
        components: 1,
        manifest_start: 72,
        ..Answer::default()
    };
    assert_eq!(read(&out, &mut table), accepted);
    let object_row = [97, 1, 1, 2, 0, 0, 0, 0, 0, 0, 0, 115, 5, 0, 0, 1];
    let component_row = [133, 4, 1, 0, 0, 64, 8, 0, 0, 0, 137, 28];
    assert_eq!(table[..OBJECT_ROW], object_row);
    assert_eq!(table[OBJECT_ROW..numbers(1, 1)], component_row);
    assert_eq!(table[numbers(1, 1)..], [9; 4]);
    let lines = b"objects 1 components 1\nobject w dense\nblob data f32 64 8\n";
    assert_eq!(program_text(&out), lines);
}

#[test]
fn every_case_and_neighbour_is_answered_as_01_says() {
    for Case { what, file, number } in cases::all() {
        assert_eq!(verdict(&file), (number, 0, 0), "{what}");
    }
}

#[test]
fn case_4_as_the_program_prints_it() {
    let mut file = CASE_1.to_vec();
    file[32] = 0;
    assert_eq!(program_text(&file), b"refused 5 0 0\n");
}

#[test]
fn the_program_reads_up_to_its_limit() {
    let manifest = root(named([])).shortest();
    let longest = frame::assemble(&vec![0; 65_536 - 48], &manifest);
    assert_eq!(program_text(&longest), b"objects 0 components 0\n");
    assert_eq!(program_text(&vec![0; 65_537]), b"too long\n");
}
