//! The planned writer against the second program: plans that rise, fall or lie in any order, sound and spoiled, under every kind of ceiling, over sound and unsound rows, with every kind
//! of room: answer, bytes, and bytes that must stay; then the file read back, each blob at its planned offset.

use against::beside;
use against::tally::{rounds, seed, Tally};
use second::columns;
use second::generate::{Generator, PlannedSet};
use second::planned::fault;
use second::rows::split;

const SETS: u64 = rounds(100_000);
/// Files beyond this aren't asked for: a plan may place a blob anywhere below 2^40.
const AMPLE: usize = (1 << 24) + (1 << 20);
/// Room for nearly every file that is written here, lent where a set is refused: the output must come back as it was.
const ENOUGH: usize = 1 << 14;
const TABLE: usize = columns::MOST;
const ROOM: u64 = 24;
const PLAN: u64 = 27;

/// Bytes that tell whether they were touched.
fn fresh(room: usize) -> Vec<u8> {
    (0..room).map(|i| (i % 251) as u8 ^ 0x5a).collect()
}

/// An accepted file's components lie where the plan says.
fn read_back(index: u64, file: &[u8], asked: &PlannedSet, table: &mut [u64]) {
    let answer = against::read(file, table);
    assert_eq!(answer.number, 0, "plan {index}: a written file is refused");
    let (_, components) = split(table, answer.objects, answer.components).expect("rows as read");
    let places: Vec<u64> = components.iter().map(|row| row.blob.place).collect();
    assert_eq!(places, asked.plan, "plan {index}: a blob isn't where it was planned");
}

/// What was refused, and how: a plan by its place among the rows.
fn label(asked: &PlannedSet, number: u64, object: u64) -> String {
    match number {
        0 => "written".to_string(),
        ROOM => "no room".to_string(),
        PLAN if object == asked.set.components => "offsets left over".to_string(),
        PLAN if object == 0 => "the first row, or the ceiling".to_string(),
        PLAN => "a later row".to_string(),
        number => format!("refused {number}"),
    }
}

#[test]
fn plans() {
    let mut tally = Tally::of("plans");
    let mut generator = Generator::new(seed());
    let mut ample = vec![0; AMPLE];
    let mut table = vec![0; TABLE];
    for index in 0..SETS {
        let asked = generator.next_planned();
        let whole = beside::write_planned(&asked, &mut ample);
        let exact = match whole.number {
            0 => whole.length as usize,
            _ => ENOUGH,
        };
        for room in [exact, exact + 7, exact.saturating_sub(1), 0] {
            let (mut ours, mut theirs) = (fresh(room), fresh(room));
            let proved = against::write_planned(&asked, &mut ours);
            let second = beside::write_planned(&asked, &mut theirs);
            if proved.number == 0 && room == exact {
                read_back(index, &ours, &asked, &mut table);
            }
            let label = label(&asked, second.number, second.object);
            tally.compare(label, (proved, ours), (second, theirs), || format!("plan {index}, room {room}"));
        }
    }
    // written, no room, three kinds of plans at fault; BIG, DEEP, TEXT, TWICE, COUNT, TYPE, RANK, ROLE, LENGTH, ROW
    tally.report(15);
}

/// Two breaches in one plan, at every pair of rows: the first counts, and ROW comes before both.
#[test]
fn the_first_breach_counts() {
    let lengths = [64, 0, 1, 128, 0];
    let sound = [64, 128, 128, 192, 4096];
    assert_eq!(fault(&lengths, &sound, 1 << 40), None);
    let mut generator = Generator::new(seed());
    let mut asked = generator.next_planned();
    while asked.set.components < 3 || beside::write_planned(&asked, &mut vec![0; ENOUGH]).number != 0 {
        asked = generator.next_planned();
    }
    let rows = asked.plan.len();
    for first in 0..rows {
        for later in first + 1..rows {
            let mut spoiled = asked.clone();
            spoiled.plan[first] += 1;
            spoiled.plan[later] = 0;
            let mut out = fresh(ENOUGH);
            let answer = against::write_planned(&spoiled, &mut out);
            assert_eq!((answer.number, answer.object, answer.component, answer.length), (PLAN, first as u64, 0, 0));
            assert_eq!(out, fresh(ENOUGH));
            spoiled.set.attributes_place = u64::MAX;
            assert_eq!(against::write_planned(&spoiled, &mut out).number, 25);
        }
    }
    for (ceiling, number) in [(1u64 << 40, 0), ((1 << 40) + 1, PLAN)] {
        let under = PlannedSet { ceiling, ..asked.clone() };
        let answer = against::write_planned(&under, &mut fresh(ENOUGH));
        assert_eq!((answer.number, answer.object), (number, 0));
    }
}
