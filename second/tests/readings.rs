//! The decided readings of document 01, one test each; the item's number stands in its comment.
//! The writer's items are in `readings_writer.rs`.

#[path = "common/mod.rs"]
mod common;

#[path = "readings/acceptance.rs"]
mod acceptance;

use acceptance::many_names;
use common::{component, judged, named, object, root, with};
use second::columns::{
    numbers, ATTRIBUTES, BLOB, COMPONENT_ROW, DIGEST, DTYPE, ENTRY, FORMAT, NAME, TYPE,
};
use second::compose::{data, dense};
use second::encode::Item;
use second::frame;
use second::listing::{listing, program_text};
use second::rows::read;
use second::view::view;

#[test]
fn short_before_header_and_big_before_fit() {
    // 42
    assert_eq!(read(&[0; 23], &mut []).number, 1);
    assert_eq!(read(&[0; 24], &mut []).number, 2);
    let mut file = frame::assemble(&[], &root(named([])).shortest());
    file[32..40].copy_from_slice(&u64::MAX.to_le_bytes());
    assert_eq!(read(&file, &mut []).number, 4);
}

/// Where the component's row begins after one object's, and where both end.
const PART: usize = numbers(1, 0);
const WHOLE: usize = numbers(1, 1);

/// A file whose manifest starts at 72, and the table that reading it gives.
fn table_of(manifest: &Item) -> (Vec<u8>, Vec<u64>) {
    let file = frame::assemble(&[0; 64], &manifest.shortest());
    let mut table = vec![0; 100];
    assert_eq!(read(&file, &mut table).number, 0);
    (file, table)
}

#[test]
fn a_place_is_the_content_of_a_text_and_the_whole_of_attributes_and_entries() {
    // 43
    let entry = with(
        with(data(), "type", Item::text("t")),
        "digest",
        Item::text("d:0"),
    );
    let bytes = entry.shortest();
    let attributes = || Item::map([("k", Item::Unsigned(1))]);
    let manifest = root(named([(
        "w",
        with(dense(entry), "attributes", attributes()),
    )]));
    let manifest = with(manifest, "attributes", attributes());
    let (file, table) = table_of(&manifest);
    let part = |place: u64, length: u64| &file[place as usize..][..length as usize];
    let at = |column: usize| part(table[column], table[column + 1]);
    assert_eq!(at(NAME), b"w");
    assert_eq!(at(FORMAT), b"dense");
    assert_eq!(at(ATTRIBUTES), b"\xA1\x61k\x01");
    assert_eq!(at(PART + NAME), b"data");
    assert_eq!(at(PART + TYPE), b"t");
    assert_eq!(at(PART + DIGEST), b"d:0");
    assert_eq!(at(PART + ENTRY), bytes);
    let answer = read(&file, &mut vec![0; WHOLE]);
    assert_eq!(
        part(answer.attributes_place, answer.attributes_length),
        b"\xA1\x61k\x01"
    );
}

#[test]
fn an_empty_text_that_is_present_has_a_place() {
    // 44
    let entry = with(with(data(), "type", Item::text("")), "digest", Item::null());
    let (file, table) = table_of(&root(named([("", dense(entry))])));
    for at in [NAME, PART + TYPE] {
        let (place, length) = (table[at], table[at + 1]);
        assert_eq!((file[place as usize - 1], length), (0x60, 0));
    }
    assert_eq!(table[PART + DIGEST..][..2], [0, 0]);
    assert_eq!(table[ATTRIBUTES..][..2], [0, 0]);
}

#[test]
fn lines_end_with_a_newline_and_empty_texts_print_as_nothing() {
    // 45, 46, 47
    let components = named([
        ("", component("u8", 64, 1)),
        ("\\ü ~", component("bool", 64, 0)),
    ]);
    let objects = named([("", object(&[], "", components)), ("w", dense(data()))]);
    let (file, table) = table_of(&root(objects));
    let lines = "objects 2 components 3\nobject  \nblob  u8 64 1\n\
        blob \\5c\\c3\\bc\\20~ bool 64 0\nobject w dense\nblob data f32 64 8\n";
    assert_eq!(
        String::from_utf8(listing(&file, &table, 2, 3).unwrap()).unwrap(),
        lines
    );
    assert_eq!(program_text(&file), lines.as_bytes());
    assert_eq!(program_text(b""), b"refused 1 0 0\n");
}

#[test]
fn a_listing_answers_for_any_table() {
    let (file, table) = table_of(&root(named([("w", dense(data()))])));
    assert!(listing(&file, &table, 1, 1).is_some());
    assert_eq!(listing(&file, &table[..WHOLE - 1], 1, 1), None);
    assert_eq!(listing(&file, &table, u64::MAX, 1), None);
    assert_eq!(listing(&file, &table, 1, 0), None);
    // a name, a format, a component's name, dtype and blob that aren't there
    for column in [NAME, FORMAT, PART + NAME, PART + DTYPE, PART + BLOB] {
        let mut foreign = table.clone();
        foreign[column] = u64::MAX;
        assert_eq!(listing(&file, &foreign, 1, 1), None);
    }
}

#[test]
fn room_is_the_programs_last_check() {
    // 48
    let printed = |objects: usize, last: &[u8]| {
        let manifest = root(many_names(objects, last)).shortest();
        String::from_utf8(program_text(&frame::assemble(&[], &manifest))).unwrap()
    };
    assert!(printed(512, b"last").starts_with("objects 512 components 0\n"));
    assert_eq!(printed(513, b"last"), "refused 24 0 0\n");
    assert_eq!(printed(513, b"1"), "refused 11 0 0\n");

    // 8,192 numbers hold the rows of 292 objects with a component each, and not of one more.
    let whole = |objects: usize| {
        let entry = |i: usize| (Item::text(&i.to_string()), dense(data()));
        let manifest = root(Item::Map((0..objects).map(entry).collect())).shortest();
        String::from_utf8(program_text(&frame::assemble(&[0; 64], &manifest))).unwrap()
    };
    assert!(whole(292).starts_with("objects 292 components 292\n"));
    assert_eq!(whole(293), "refused 24 0 0\n");
}

#[test]
fn a_view_needs_all_numbers_of_its_row() {
    // 49
    let (file, table) = table_of(&root(named([("w", dense(data()))])));
    assert_eq!(view(&file, &table[..WHOLE], 1, 1, 0), Ok((64, 8)));
    assert_eq!(view(&file, &table[..WHOLE - 1], 1, 1, 0), Err(26));
    assert_eq!(view(&file, &table, 1, 1, 1), Err(26));
    assert_eq!(view(&file, &table, 1, 0, 0), Err(26));
    for objects in [u64::MAX, 1 << 60, 1 << 63] {
        // The objects' numbers would wrap to a small number.
        assert_eq!(view(&file, &table, objects, 1, 0), Err(26));
    }
    assert_eq!(view(&file, &table, 0, u64::MAX, u64::MAX - 1), Err(26));
}

#[test]
fn a_views_range_is_tested_against_the_file() {
    // 50
    let file = [0; 100];
    let judge = |offset, length| {
        let mut row = [0; COMPONENT_ROW];
        row[BLOB..][..2].copy_from_slice(&[offset, length]);
        view(&file, &row, 0, 1, 0)
    };
    for (offset, length) in [(0, 100), (100, 0), (99, 1), (3, 5), (0, 0)] {
        assert_eq!(judge(offset, length), Ok((offset, length)));
    }
    for (offset, length) in [(101, 0), (100, 1), (0, 101), (u64::MAX, 1), (1, u64::MAX)] {
        assert_eq!(judge(offset, length), Err(26));
    }
}
