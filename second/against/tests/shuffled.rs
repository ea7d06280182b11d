//! Files whose manifests are alike (demand 3, Req 06): fields shuffled, unknown ones dropped or added, 1.x versions exchanged, sound and damaged, in both layouts.
//! What the library answers for the one is held against what it answers for the other, tables column by column. The seed is fixed; `SEED=n` takes another. Each test
//! prints how often each answer occurred.

use against::beside;
use against::tally::{hex, rounds, seed, Tally};
use against::{Answer, Verdict};
use second::alike::{in_order, is_unknown, level_below, whole_item};
use second::cbor::DEPTH;
use second::columns;
use second::compose::is_text;
use second::encode::Item;
use second::generate::{FilePair, Generator};
use second::layout::{Layout, COMPONENT, OBJECT, ROOT};
use second::listing::listing;
use second::refusal::{INDEX, KIND, LENGTH, ROOM, TYPE};
use second::rows::{split, ComponentRow, ObjectRow, Part};

/// Half of them in each layout.
const PAIRS: u64 = rounds(100_000);
/// In each layout, of objects and of components.
const EXCHANGES: u64 = rounds(5_000);
/// Room for every file that is accepted.
const AMPLE: usize = columns::MOST;
/// Room for nearly every generated file: lent to each that is refused, and must come back as it was.
const ENOUGH: usize = 1024;

/// A table whose numbers tell whether they were touched.
fn fresh(room: usize) -> Vec<u64> {
    (0..room as u64).map(|i| i ^ 0x5a5a_5a5a_5a5a_5a5a).collect()
}

fn label(number: u64) -> String {
    match number {
        0 => "accepted".to_string(),
        _ => format!("refused {number:2}"),
    }
}

/// How many numbers the rows of an accepted file take.
fn exact(answer: &Answer) -> usize {
    columns::numbers(answer.objects as usize, answer.components as usize)
}

fn files(pair: &FilePair) -> [&[u8]; 2] {
    [&pair.first, &pair.second]
}

/// Both manifests, of files that pass checks 1 to 7.
fn manifests(layout: Layout, pair: &FilePair) -> [(usize, Item); 2] {
    files(pair).map(|file| {
        let range = layout.manifest_range(file).expect("checks 1 to 5 pass");
        (range.start, whole_item(&file[range], DEPTH).expect("checks 6 and 7 pass"))
    })
}

/// Whether they start at the same place and are alike.
fn alike(layout: Layout, manifests: &[(usize, Item); 2]) -> bool {
    let [one, other] = manifests.each_ref().map(|(start, root)| (start, in_order(layout, ROOT, root).shortest()));
    one == other
}

/// What a column says, places aside: a number, or what is found at a span, if there is one.
#[derive(Clone, Debug, PartialEq, Eq, PartialOrd, Ord)]
enum Column {
    Number(u64),
    Found(Option<Vec<u8>>),
}
use Column::{Found, Number};

type Rows = Vec<Vec<Column>>;

/// What an accepted file's answer and its table say.
#[derive(Debug, PartialEq, Eq)]
struct Said {
    root: Vec<Column>,
    objects: Rows,
    components: Rows,
}

/// A file, what the library answers for it, and the table then.
struct Reading<'a> {
    layout: Layout,
    file: &'a [u8],
    answer: Answer,
    table: Vec<u64>,
}

fn readings(layout: Layout, pair: &FilePair, room: usize) -> [Reading<'_>; 2] {
    files(pair).map(|file| {
        let mut table = fresh(room);
        let answer = against::read_as(layout.number(), file, &mut table);
        Reading { layout, file, answer, table }
    })
}

impl Reading<'_> {
    fn said(&self) -> Said {
        let Answer { number, object, component, objects, components, start, place, size } = self.answer;
        let numbers = [number, object, component, objects, components, start].map(Number);
        let attributes = self.attributes(Part { place, length: size }, 2);
        let (object_rows, component_rows) = split(&self.table, objects, components).expect("the rows are in the table");
        Said {
            root: numbers.into_iter().chain([attributes]).collect(),
            objects: object_rows.iter().map(|row| self.object(row)).collect(),
            components: component_rows.iter().map(|row| self.component(row)).collect(),
        }
    }

    /// What of the table is no row.
    fn beyond(&self) -> &[u64] {
        &self.table[exact(&self.answer)..]
    }

    fn object(&self, row: &ObjectRow) -> Vec<Column> {
        let ObjectRow { name, rank, dimensions, format, attributes, components } = *row;
        let mut columns = vec![self.text(name), self.text(format), self.attributes(attributes, 4), Number(rank), Number(components)];
        columns.extend(dimensions.map(Number));
        columns
    }

    fn component(&self, row: &ComponentRow) -> Vec<Column> {
        let ComponentRow { name, dtype, logical, blob, digest, owner, entry } = *row;
        let entry = in_order(self.layout, COMPONENT, &self.map(entry, 5)).shortest();
        let numbers = [dtype, blob.place, blob.length, owner].map(Number);
        let found = [self.text(name), self.text(logical), self.text(digest), Found(Some(entry))];
        found.into_iter().chain(numbers).collect()
    }

    fn text(&self, part: Part) -> Column {
        Found(present(part).map(|part| part.of(self.file).expect("a text lies in its file").to_vec()))
    }

    /// Attributes that stand at a depth mean the same however they are encoded.
    fn attributes(&self, part: Part, depth: u32) -> Column {
        Found(present(part).map(|part| self.map(part, depth).shortest()))
    }

    /// The one map that fills a span.
    fn map(&self, part: Part, depth: u32) -> Item {
        let item = part.of(self.file).and_then(|bytes| whole_item(bytes, DEPTH + 1 - depth));
        item.filter(|item| matches!(item, Item::Map(_))).expect("a span holds one map")
    }
}

fn present(part: Part) -> Option<Part> {
    (part != Part::default()).then_some(part)
}

/// Reads both into tables of equal length: the same refusal and tables as they were, or tables that say the same and are as they were beyond their rows.
fn compare_reads(tally: &mut Tally, layout: Layout, pair: &FilePair, room: usize, what: &dyn Fn() -> String) {
    let [one, other] = readings(layout, pair, room);
    let number = one.answer.number;
    tally.count(label(number));
    if number != 0 {
        assert_eq!(one.answer, other.answer, "{}", what());
        assert!(one.table == fresh(room) && other.table == fresh(room), "{}", what());
        return;
    }
    assert_eq!(other.answer.number, 0, "{}", what());
    assert_eq!(one.said(), other.said(), "{}", what());
    let untouched = &fresh(room)[room - one.beyond().len()..];
    assert!(one.beyond() == untouched && other.beyond() == untouched, "{}", what());
    compare_views(&one, &other, what);
    compare_listings(&one, &other, what);
}

fn compare_accepts(layout: Layout, pair: &FilePair, second: &Answer, what: &dyn Fn() -> String) {
    let verdict = Verdict { number: second.number, object: second.object, component: second.component };
    for file in files(pair) {
        assert_eq!(against::accept_as(layout.number(), file), verdict, "{}", what());
        assert_eq!(against::box_accept_as(layout.number(), file), verdict.number, "{}", what());
    }
}

/// Every component's view, and one that isn't there.
fn compare_views(one: &Reading, other: &Reading, what: &dyn Fn() -> String) {
    let Answer { objects, components, .. } = one.answer;
    for index in 0..=components {
        let [first, second] = [one, other].map(|of| against::view(of.file, &of.table, objects, components, index));
        assert_eq!(first, second, "{}", what());
        assert_eq!(first.number, if index < components { 0 } else { INDEX.into() }, "{}", what());
    }
}

/// The listing with just enough room, and with a byte less.
fn compare_listings(one: &Reading, other: &Reading, what: &dyn Fn() -> String) {
    let Answer { objects, components, .. } = one.answer;
    let text = listing(one.file, &one.table, objects, components).expect("an accepted file has a listing");
    for (room, number) in [(text.len(), 0), (text.len() - 1, ROOM)] {
        let [first, second] = [one, other].map(|of| {
            let mut held = vec![7; room];
            (against::list(of.file, &of.table, objects, components, &mut held), held)
        });
        assert_eq!(first, second, "{}", what());
        assert_eq!(first.0.number, number.into(), "{}", what());
    }
}

/// Of each map at a level, which keys stand there, and whether they are unknown.
fn keys(layout: Layout, item: &Item, at: usize, level: usize, found: &mut Vec<Vec<(bool, Vec<u8>)>>) {
    let Item::Map(pairs) = item else {
        return;
    };
    if at == level {
        found.push(pairs.iter().map(|(key, _)| (is_unknown(layout, level, key), key.shortest())).collect());
        return;
    }
    for (key, value) in pairs {
        if let Some(below) = level_below(layout, at, key) {
            keys(layout, value, below, level, found);
        }
    }
}

/// What stands for the version, if anything does.
fn version(root: &Item) -> Option<Vec<u8>> {
    let Item::Map(pairs) = root else {
        return None;
    };
    pairs.iter().find(|(key, _)| is_text(key, "version")).map(|(_, value)| value.shortest())
}

/// Counts at which levels known fields stand in another order, and at which unknown ones are others; and other versions.
fn count_changes(tally: &mut Tally, layout: Layout, manifests: &[(usize, Item); 2], answer: &str) {
    for (level, name) in [(ROOT, "root"), (OBJECT, "object"), (COMPONENT, "component")] {
        for (unknown, change) in [(false, "fields moved"), (true, "unknown changed")] {
            let [one, other] = manifests.each_ref().map(|(_, root)| {
                let mut found = Vec::new();
                keys(layout, root, ROOT, level, &mut found);
                found.iter_mut().for_each(|keys| keys.retain(|key| key.0 == unknown));
                found
            });
            if one != other {
                tally.count(format!("{answer} {name} {change}"));
            }
        }
    }
    let [one, other] = manifests.each_ref().map(|(_, root)| version(root));
    if one != other {
        tally.count(format!("{answer} version changed"));
    }
}

#[test]
fn shuffled_fields_are_read_alike() {
    let mut tallies = [Tally::of("shuffled pairs of layout 1.2.0"), Tally::of("shuffled pairs of layout 1.0")];
    let mut changes = Tally::of("what differs in shuffled pairs");
    let mut generator = Generator::new(seed());
    let mut ample = vec![0; AMPLE];
    for index in 0..PAIRS {
        let layout = Layout::of(index % 2);
        let tally = &mut tallies[index as usize % 2];
        let pair = generator.next_shuffled(layout);
        let what = || format!("pair {index}, seed {}: {} and {}", seed(), hex(&pair.first), hex(&pair.second));
        let manifests = manifests(layout, &pair);
        assert!(alike(layout, &manifests), "{}", what());
        let whole = beside::read_as(layout.number(), &pair.first, &mut ample);
        compare_accepts(layout, &pair, &whole, &what);
        let exact = exact(&whole);
        let (rooms, answer) = match whole.number {
            0 => (vec![exact, exact + 7, exact.saturating_sub(1)], "accepted:"),
            _ => (vec![ENOUGH], "refused:"),
        };
        for room in rooms {
            compare_reads(tally, layout, &pair, room, &what);
        }
        count_changes(&mut changes, layout, &manifests, answer);
    }
    for (layout, tally) in Layout::ALL.into_iter().zip(&tallies) {
        // Accepted, and refusals 8 to 23, TYPE only where there are types; ROOM where the table is short.
        let refusals = (KIND..=LENGTH).filter(|&number| layout == Layout::Current || number != TYPE);
        let due: Vec<u8> = [0, ROOM].into_iter().chain(refusals).collect();
        tally.report(due.len());
        assert!(due.iter().all(|&number| tally.part(&label(number.into())) > 0.0));
        assert!(tally.part(&label(0)) > 0.1);
    }
    // Accepted and refused: three kinds of map, moved and with other unknown fields, and versions.
    changes.report(2 * (3 * 2 + 1));
}

/// That the same rows stand in another order: two of them have changed places.
fn two_changed_places(one: &Rows, other: &Rows) -> bool {
    let apart: Vec<usize> = (0..one.len()).filter(|&at| one[at] != other[at]).collect();
    matches!(apart[..], [a, b] if one[a] == other[b] && one[b] == other[a])
}

/// The relation doesn't reach to names: with two objects, or two components of one, in each other's place, tables differ.
#[test]
fn exchanged_rows_are_told_apart() {
    let mut tally = Tally::of("exchanged rows");
    let mut generator = Generator::new(!seed());
    let mut ample = vec![0; AMPLE];
    for index in 0..EXCHANGES {
        for (layout, level) in Layout::ALL.into_iter().flat_map(|layout| [(layout, OBJECT), (layout, COMPONENT)]) {
            let pair = generator.next_exchanged(layout, level);
            let what = || format!("pair {index}, seed {}: {} and {}", seed(), hex(&pair.first), hex(&pair.second));
            assert!(!alike(layout, &manifests(layout, &pair)), "{}", what());
            let whole = beside::read_as(layout.number(), &pair.first, &mut ample);
            let [one, other] = readings(layout, &pair, exact(&whole));
            assert_eq!((one.answer.number, other.answer.number), (0, 0), "{}", what());
            let (one, other) = (one.said(), other.said());
            assert_eq!(one.root, other.root, "{}", what());
            if level == OBJECT {
                assert!(two_changed_places(&one.objects, &other.objects), "{}", what());
                tally.count(format!("objects of {layout:?}"));
            } else {
                assert_eq!(one.objects, other.objects, "{}", what());
                assert!(two_changed_places(&one.components, &other.components), "{}", what());
                tally.count(format!("components of {layout:?}"));
            }
        }
    }
    tally.report(4);
}
