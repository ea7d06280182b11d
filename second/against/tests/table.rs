//! Tables, views and listings: the calls for C against the second program, on generated and damaged files, with every kind of room and with hostile tables.

use against::beside;
use against::tally::{inputs, seed, Tally};
use against::Extent;
use second::generate::nth_file;
use second::{columns, listing, view};

const FILES: u64 = inputs(200_000);
/// Room for every file that is accepted.
const AMPLE: usize = columns::MOST;
/// Room for nearly every generated file: lent to each that is refused, and must come back as it was.
const ENOUGH: usize = 1024;
/// Room for the listing of every generated file: lent where there is none to list.
const LINES: usize = 4096;
/// One refused file in so many gets all the room that a file can ask for.
const WIDE: u64 = 500;
const ROOM: u64 = 24;
const INDEX: u64 = 26;

/// A table whose numbers tell whether they were touched.
fn fresh(room: usize) -> Vec<u64> {
    (0..room as u64).map(|i| i ^ 0x5a5a_5a5a_5a5a_5a5a).collect()
}

fn second_view(file: &[u8], table: &[u64], objects: u64, components: u64, index: u64) -> Extent {
    match view::view(file, table, objects, components, index) {
        Ok((offset, length)) => Extent { number: 0, offset, length },
        Err(_) => Extent { number: INDEX, offset: 0, length: 0 },
    }
}

/// Numbers that lie near a limit as often as not.
fn hostile(state: &mut u64, near: u64) -> u64 {
    *state = state.wrapping_mul(6364136223846793005).wrapping_add(1442695040888963407);
    match *state >> 61 {
        0 => u64::MAX - (*state >> 32 & 3),
        1 => u64::MAX / columns::OBJECT_ROW as u64 + (*state >> 32 & 3),
        2 => near.wrapping_sub(1),
        3 => near + 1,
        4 => near,
        _ => *state >> 32 & 31,
    }
}

#[test]
fn tables() {
    let mut tally = Tally::of("tables");
    let mut ample = vec![0; AMPLE];
    for index in 0..FILES {
        let file = nth_file(seed(), index);
        let whole = beside::read(&file, &mut ample);
        let exact = columns::numbers(whole.objects as usize, whole.components as usize);
        let rooms = match whole.number {
            0 => vec![exact, exact + 7, exact.saturating_sub(1), 0],
            _ if index % WIDE == 0 => vec![AMPLE, ENOUGH, 0],
            _ => vec![ENOUGH, 0],
        };
        for room in rooms {
            let (mut ours, mut theirs) = (fresh(room), fresh(room));
            let proved = against::read(&file, &mut ours);
            let second = beside::read(&file, &mut theirs);
            let label = match second.number {
                0 => "accepted",
                ROOM => "no room",
                _ => "refused",
            };
            tally.compare(label, (proved, ours), (second, theirs), || format!("seed {}, file {index}, room {room}", seed()));
        }
    }
    tally.report(3);
}

#[test]
fn views() {
    let mut tally = Tally::of("views");
    let mut state = seed();
    for index in 0..FILES / 4 {
        let file = nth_file(seed(), index);
        let mut table = fresh(400);
        let answer = beside::read(&file, &mut table);
        for turn in 0..12 {
            let (objects, components, at) = match turn {
                0..=3 => (answer.objects, answer.components, turn),
                _ => (
                    hostile(&mut state, answer.objects),
                    hostile(&mut state, answer.components),
                    hostile(&mut state, answer.components),
                ),
            };
            let proved = against::view(&file, &table, objects, components, at);
            let second = second_view(&file, &table, objects, components, at);
            let label = if second.number == 0 { "a range" } else { "INDEX" };
            tally.compare(label, proved, second, || format!("seed {}, file {index}: {objects} {components} {at}", seed()));
        }
    }
    tally.report(2);
}

/// Compares the listing of this table with several rooms for its text.
fn compare_listings(tally: &mut Tally, index: u64, file: &[u8], table: &[u64], objects: u64, components: u64) {
    let text = listing::listing(file, table, objects, components);
    let exact = text.as_ref().map_or(LINES, Vec::len);
    for room in [exact, exact + 3, exact.saturating_sub(1), 0] {
        let (mut ours, mut theirs) = (vec![7; room], vec![7; room]);
        let proved = against::list(file, table, objects, components, &mut ours);
        let second = beside::list(text.as_deref(), &mut theirs);
        let label = match second.number {
            0 => "listed",
            ROOM => "no room",
            _ => "INDEX",
        };
        tally.compare(label, (proved, ours), (second, theirs), || {
            format!("seed {}, file {index}, room {room}: {objects} {components}", seed())
        });
    }
}

#[test]
fn listings() {
    let mut tally = Tally::of("listings");
    let mut state = seed();
    let mut table = vec![0; AMPLE];
    for index in 0..FILES {
        let file = nth_file(seed(), index);
        let a = beside::read(&file, &mut table);
        if a.number != 0 {
            continue;
        }
        let room = columns::numbers(a.objects as usize, a.components as usize);
        compare_listings(&mut tally, index, &file, &table[..room], a.objects, a.components);
        // a row that is none of this file's, then counts that aren't
        let mut foreign = table[..room].to_vec();
        if room > 0 {
            let column = hostile(&mut state, 3) as usize % room;
            foreign[column] = hostile(&mut state, file.len() as u64);
            compare_listings(&mut tally, index, &file, &foreign, a.objects, a.components);
        }
        let (objects, components) = (hostile(&mut state, a.objects), hostile(&mut state, a.components));
        compare_listings(&mut tally, index, &file, &table[..room], objects, components);
    }
    tally.report(3);
}
