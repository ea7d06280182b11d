//! What changed between two files, against the second program: pairs of files of both layouts, the second the first with small edits, another file, or the same, sound and damaged, with
//! rooms for the rows and for the list that are ample, exact and one short: answer, list, numbers that must stay, and a working room that ends as zeros.

use against::tally::{rounds, seed, Tally};
use second::changes::{self, ENTRY};
use second::generate::{FilePair, Generator};

const PAIRS: u64 = rounds(20_000);
const AMPLE: usize = 2 * second::columns::MOST;
const ROOM: u64 = 24;
/// What stands in lent numbers beforehand.
const BEFORE: u64 = 0x5a5a_5a5a_5a5a_5a5a;

/// Numbers lent between others that must stay: a call that writes past its room changes them.
struct Lent {
    numbers: Vec<u64>,
    room: usize,
}

impl Lent {
    fn of(room: usize) -> Lent {
        Lent { numbers: vec![BEFORE; room + 16], room }
    }

    fn lent(&mut self) -> &mut [u64] {
        &mut self.numbers[8..8 + self.room]
    }

    fn stays_around(&self) -> bool {
        let (before, after) = (&self.numbers[..8], &self.numbers[8 + self.room..]);
        before.iter().chain(after).all(|&n| n == BEFORE)
    }
}

fn label(numbers: [u64; 5], list: &[u64]) -> String {
    match numbers {
        [0, _, _, _, 0] => "nothing changed".to_string(),
        [0, ..] => format!("kinds up to {}", list.chunks(ENTRY).map(|entry| entry[0]).max().unwrap_or(0)),
        [ROOM, 0, _, _, 0] => "no room for rows".to_string(),
        [ROOM, 0, ..] => "no room for the list".to_string(),
        [_, file, ..] => format!("file {file} refused"),
    }
}

/// One call on both sides; how many entries there are.
fn compared(tally: &mut Tally, index: u64, pair: &FilePair, work_room: usize, list_room: usize) -> u64 {
    let FilePair { first_layout, first, second_layout, second } = pair;
    let (mut work, mut list) = (Lent::of(work_room), Lent::of(list_room));
    let (mut other_work, mut other_list) = (vec![BEFORE; work_room], vec![BEFORE; list_room]);
    let ours = against::diff(*first_layout, first, *second_layout, second, work.lent(), list.lent());
    let theirs = changes::diff(*first_layout, first, *second_layout, second, &mut other_work, &mut other_list).numbers();
    assert!(work.stays_around() && list.stays_around(), "seed {}, pair {index}: written past a room", seed());
    assert!(work.lent().iter().all(|&n| n == 0), "seed {}, pair {index}: the working room isn't cleared", seed());
    let numbers = [ours.number, ours.file, ours.object, ours.component, ours.entries];
    let shown = || format!("pair {index}, rooms {work_room} and {list_room}");
    let label = label(theirs, &other_list[..ENTRY * if theirs[0] == 0 { theirs[4] as usize } else { 0 }]);
    tally.compare(label, (numbers, list.lent().to_vec()), (theirs, other_list), shown);
    theirs[4]
}

/// How many numbers the tables of both take, or 0 where one is refused.
fn rows_of(pair: &FilePair, table: &mut [u64]) -> usize {
    let one = against::read_as(pair.first_layout, &pair.first, table);
    let other = against::read_as(pair.second_layout, &pair.second, table);
    let numbers = |a: &against::Answer| second::columns::numbers(a.objects as usize, a.components as usize);
    numbers(&one) + numbers(&other)
}

#[test]
fn pairs() {
    let mut tally = Tally::of("what changed");
    let mut generator = Generator::new(seed());
    let mut table = vec![0; second::columns::MOST];
    for index in 0..PAIRS {
        let mut pair = generator.next_pair();
        match index % 8 {
            5 => generator.damage(&mut pair.first),
            6 => generator.damage(&mut pair.second),
            7 => (pair.second_layout, pair.second) = (pair.first_layout, pair.first.clone()),
            _ => {}
        }
        let rows = rows_of(&pair, &mut table);
        let needed = ENTRY * compared(&mut tally, index, &pair, rows, 0) as usize;
        for (work, list) in [(rows, needed), (rows + 5, needed + 3), (rows, needed.saturating_sub(1)), (rows.saturating_sub(1), needed)] {
            compared(&mut tally, index, &pair, work, list);
        }
    }
    // nothing, both rooms, both files, and lists with each of the six kinds
    tally.report(11);
}

/// A file beside itself in the other direction: what is only in one is only in the other, and the rest is the same but for the indices' places.
#[test]
fn exchanged() {
    let mut generator = Generator::new(seed() + 1);
    let (mut work, mut list, mut back) = (vec![0; AMPLE], vec![0; AMPLE], vec![0; AMPLE]);
    for index in 0..rounds(2_000) {
        let FilePair { first_layout, first, second_layout, second } = generator.next_pair();
        let there = against::diff(first_layout, &first, second_layout, &second, &mut work, &mut list);
        let again = against::diff(second_layout, &second, first_layout, &first, &mut work, &mut back);
        if there.number != 0 || again.number != 0 {
            continue;
        }
        let count = ENTRY * there.entries as usize;
        let turned = |kind: u64| [0, 2, 1, 3, 4, 6, 5][kind as usize];
        let mut ours: Vec<Vec<u64>> = list[..count].chunks(ENTRY).map(<[u64]>::to_vec).collect();
        let mut theirs: Vec<Vec<u64>> =
            back[..ENTRY * again.entries as usize].chunks(ENTRY).map(|e| vec![turned(e[0]), e[2], e[1], e[4], e[3], e[5], e[6], e[7]]).collect();
        ours.sort();
        theirs.sort();
        assert_eq!(ours, theirs, "seed {}, pair {index}", seed());
    }
}
