//! Layout 1.0 (document 001, Req 05): its readings, and imported rows through the writer.

#[path = "readings/first_layout.rs"]
mod first_layout;

use second::generate::{nth_file_as, Generator};
use second::layout::{accept_as, Layout};
use second::refusal::{BIG, FOOTER, ROLE, TYPE};
use second::rows::{read, read_as, split, Part};
use second::writer::write;

/// The number that says layout 1.0.
const FIRST: u64 = 1;
/// Every reading has room enough.
const AMPLE: usize = 220_000;

fn listing(file: &[u8], table: &[u64], objects: u64, components: u64) -> Vec<u8> {
    second::listing::listing(file, table, objects, components).expect("a listing")
}

#[test]
fn generated_files_reach_every_refusal_but_footer_and_type() {
    const FILES: u64 = 40_000;
    let mut seen = [0usize; 24];
    let mut role_components = [0usize; 16];
    for index in 0..FILES {
        let file = nth_file_as(Layout::First, 5, index);
        let (number, _, component) = Layout::First.verdict(&file);
        seen[usize::from(number)] += 1;
        if number == ROLE {
            role_components[component as usize] += 1;
        }
    }
    for number in 1..24 {
        let reached = seen[usize::from(number)] > 0;
        assert_eq!(reached, ![FOOTER, TYPE].contains(&number), "{number}");
    }
    assert!(seen[0] > FILES as usize / 8);
    // ROLE is only for an absent role.
    assert!(role_components[1..].iter().all(|&count| count == 0));
}

/// Imported rows write, and what is written reads as the 1.0 file did.
#[test]
fn imported_rows_write_and_read_back() {
    let mut generator = Generator::new(9);
    let (mut imported, mut table, mut again) = (0, vec![0; AMPLE], vec![0; AMPLE]);
    for _ in 0..20_000 {
        let file = generator.next_file_as(Layout::First);
        let answer = read_as(FIRST, &file, &mut table);
        if answer.number != 0 {
            continue;
        }
        let mut out = vec![0; 3 * file.len() + 4096];
        let (objects, components) = (answer.objects, answer.components);
        let (place, length) = (answer.attributes_place, answer.attributes_length);
        let written = write(&table, objects, components, place, length, &file, &mut out);
        if written.number == BIG {
            continue;
        }
        assert_eq!(
            (written.number, written.object, written.component),
            (0, 0, 0)
        );
        let new = &out[..written.length as usize];
        let back = read(new, &mut again);
        assert_eq!(
            (back.number, back.objects, back.components),
            (0, objects, components)
        );
        let attributes = |place, length| Part { place, length };
        assert_eq!(
            attributes(place, length).of(&file),
            attributes(back.attributes_place, back.attributes_length).of(new)
        );
        same(&file, &table, new, &again, objects, components);
        imported += 1;
    }
    assert!(imported > 4_000);
}

fn same(
    old: &[u8],
    old_table: &[u64],
    new: &[u8],
    new_table: &[u64],
    objects: u64,
    components: u64,
) {
    let (old_objects, old_components) = split(old_table, objects, components).unwrap();
    let (new_objects, new_components) = split(new_table, objects, components).unwrap();
    for (one, other) in old_objects.iter().zip(&new_objects) {
        assert_eq!(one.name.of(old), other.name.of(new));
        assert_eq!(one.format.of(old), other.format.of(new));
        assert_eq!((one.rank, one.dimensions), (other.rank, other.dimensions));
        assert_eq!(other.attributes, Part::default());
    }
    for (one, other) in old_components.iter().zip(&new_components) {
        assert_eq!(one.name.of(old), other.name.of(new));
        assert_eq!(one.blob.of(old), other.blob.of(new));
        assert_eq!((one.dtype, one.owner), (other.dtype, other.owner));
        assert_eq!(one.digest.of(old), other.digest.of(new));
        assert_eq!(other.logical, Part::default());
    }
}
