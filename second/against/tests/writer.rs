//! The writer against the second program on sound and unsound rows, with every kind of room: answer, bytes, and bytes that must stay; then the file read back.

use against::beside;
use against::tally::{inputs, seed, Tally};
use second::generate::Generator;
use second::{columns, rows};

const SETS: u64 = inputs(100_000);
/// Room for every file that is written here: the largest manifest, and what stands around it.
const AMPLE: usize = (1 << 24) + (1 << 20);
/// Room for nearly every file that is written here, lent where a set is refused: the output must come back as it was.
const ENOUGH: usize = 1 << 16;
/// Room for a table of every file that is accepted.
const TABLE: usize = columns::MOST;
const ROOM: u64 = 24;

/// Bytes that tell whether they were touched.
fn fresh(room: usize) -> Vec<u8> {
    (0..room).map(|i| (i % 251) as u8 ^ 0x5a).collect()
}

/// The rows that a file gives, as numbers without places: what the two programs must agree on after reading a file back.
fn read_back(tally: &mut Tally, index: u64, file: &[u8], table: (&mut [u64], &mut [u64])) {
    let proved = against::read(file, table.0);
    let second = rows::read(file, table.1);
    let used = columns::numbers(second.objects as usize, second.components as usize);
    let proved = (proved.number, proved.objects, proved.components, &table.0[..used]);
    let second = (u64::from(second.number), second.objects, second.components, &table.1[..used]);
    tally.compare("read back", proved, second, || format!("row set {index}"));
    assert_eq!(proved.0, 0, "row set {index}: a written file is refused");
}

#[test]
fn writings() {
    let mut tally = Tally::of("writings");
    let mut generator = Generator::new(seed());
    let mut ample = vec![0; AMPLE];
    let mut tables = (vec![0; TABLE], vec![0; TABLE]);
    for index in 0..SETS {
        let set = generator.next_rows();
        let whole = beside::write(&set, &mut ample);
        let exact = match whole.number {
            0 => whole.length as usize,
            _ => ENOUGH,
        };
        for room in [exact, exact + 7, exact.saturating_sub(1), 0] {
            let (mut ours, mut theirs) = (fresh(room), fresh(room));
            let proved = against::write(&set, &mut ours);
            let second = beside::write(&set, &mut theirs);
            let label = match second.number {
                0 => "written".to_string(),
                ROOM => "no room".to_string(),
                number => format!("refused {number}"),
            };
            if proved.number == 0 && room == exact {
                read_back(&mut tally, index, &ours, (&mut tables.0, &mut tables.1));
            }
            tally.compare(label, (proved, ours), (second, theirs), || format!("row set {index}, room {room}"));
        }
    }
    // written, no room, read back; DEEP, TEXT, TWICE, COUNT, BIG, TYPE, RANK, ROLE, LENGTH, ROW
    tally.report(13);
}
