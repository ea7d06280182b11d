//! Why files are refused, against the second program: explanation and sentence of files of both layouts that are sound, damaged or refused in some objects, of every place of a file
//! changed, of two faults at once, of names with every byte, and of files at their limits; for a table of no room, of one number short, exact and ample, and a text that is exact,
//! one short and longer. Number, object and component are the reader's; names and spans lie in the file; no name makes a line or a part of one; and a repair moves the answer on.

#[path = "../../tests/readings/explaining.rs"]
mod readings;

use against::tally::{hex, rounds, seed, Tally};
use against::{beside, Listed};
use second::compose::{component, data, dense, named, object, root, set};
use second::encode::Item;
use second::explain::{Explanation, Said};
use second::frame::{self, SIZE_LIMIT};
use second::generate::Generator;
use second::layout::Layout;
use second::refusal::{ALIGN, BIG, CBOR, COUNT, DEEP, KIND, LENGTH, MISSING, ROOM, SHORT, TEXT, TWICE};
use second::repair::{repaired, turn};
use second::rows::Part;
use second::sweep;

const FILES: u64 = rounds(200_000);
/// Numbers that say a layout: 1.2.0, or 1.0.
const LAYOUTS: [u64; 8] = [0, 1, 2, 1, 1 << 32 | 1, 1, u64::MAX, 1];
const MARK: u8 = 0xA5;
/// Bytes on both sides of a lent text, which must stay.
const BEYOND: usize = 16;
/// Room for nearly every generated file.
const ENOUGH: usize = 1024;
/// As many repairs of one file as are tried; a manifest that ends far too early gets them all.
const REPAIRS: usize = 16;

// What the shared readings ask, of the library.

fn explain(layout: u64, file: &[u8], room: u64) -> Explanation {
    let a = against::explain(layout, file, room);
    let part = |place, length| Part { place, length };
    Explanation {
        number: a.number,
        object: a.object,
        component: a.component,
        object_name: part(a.object_name, a.object_name_length),
        component_name: part(a.component_name, a.component_name_length),
        span: part(a.place, a.length),
        room: a.room,
    }
}

fn sentence(layout: u64, file: &[u8], room: u64, text: &mut [u8]) -> Said {
    let Listed { number, length } = against::sentence(layout, file, room, text);
    Said { number, length }
}

fn sentence_text(layout: u64, file: &[u8], room: u64) -> Vec<u8> {
    let mut text = vec![0; 4096];
    let said = sentence(layout, file, room, &mut text);
    assert_eq!(said.number, 0);
    text.truncate(said.length as usize);
    text
}

/// Which rule of the spans an answer shows: its layout and number, whom it belongs to, and whether the span is empty where it may be.
fn rule(layout: u64, why: &Explanation) -> String {
    let given = |name: Part| name != Part::default();
    let layout = match Layout::of(layout) {
        Layout::Current => "1.2.0",
        Layout::First => "1.0",
    };
    let owner = match (given(why.object_name), given(why.component_name)) {
        (_, true) => " in a component",
        (true, _) => " in an object",
        _ => "",
    };
    let empty = match (why.number as u8, why.span.length) {
        (SHORT | CBOR, 0) => ", empty",
        _ => "",
    };
    format!("{layout}: {}{owner}{empty}", why.number)
}

fn shown(layout: u64, file: &[u8], room: u64) -> String {
    format!("layout {layout}, room {room}: {}", hex(&file[..file.len().min(4096)]))
}

/// Both explanations, which are the same, and the reader's refusal for a table of that room; names and span lie in the file.
fn explained(tally: &mut Tally, layout: u64, file: &[u8], room: u64) -> Explanation {
    let said = explain(layout, file, room);
    let told = second::explain::explain(layout, file, room);
    tally.compare(rule(layout, &told), said, told, || shown(layout, file, room));
    let read = against::read_as(layout, file, &mut vec![0; room as usize]);
    assert_eq!((said.number, said.object, said.component), (read.number, read.object, read.component));
    for part in [said.object_name, said.component_name, said.span] {
        assert!(part.of(file).is_some(), "{part:?} for {}", shown(layout, file, room));
    }
    said
}

/// Both sentences in a lent text of so many bytes, with what stands around it.
fn lent(layout: u64, file: &[u8], room: u64, text: &[u8], bytes: usize) {
    let mut ours = vec![MARK; bytes + 2 * BEYOND];
    let mut theirs = ours.clone();
    let part = BEYOND..BEYOND + bytes;
    let said = against::sentence(layout, file, room, &mut ours[part.clone()]);
    let told = beside::list(Some(text), &mut theirs[part]);
    let shown = || format!("{bytes} bytes of text, {}", shown(layout, file, room));
    assert_eq!(said, told, "{}", shown());
    assert!(ours == theirs, "{:?} for {}", String::from_utf8_lossy(&ours), shown());
}

/// Nothing but printed bytes and one newline, at the end; no name holds what stands between the parts.
fn one_line(text: &[u8], why: &Explanation) {
    let line = std::str::from_utf8(text).expect("ASCII");
    let (inner, end) = line.split_at(line.len() - 1);
    assert!(end == "\n" && inner.bytes().all(|byte| (32..127).contains(&byte)), "{line:?}");
    let names = [why.object_name, why.component_name].iter().filter(|&&name| name != Part::default()).count();
    match why.number {
        0 => assert!(line == "accepted\n" && *why == Explanation::default()),
        _ => assert_eq!(line.split("; ").count(), 2 + names, "{line:?}"),
    }
}

/// The explanations, and the sentences in a text that is exact.
fn both(tally: &mut Tally, layout: u64, file: &[u8], room: u64) -> Explanation {
    let why = explained(tally, layout, file, room);
    let text = second::explain::sentence_text(layout, file, room);
    lent(layout, file, room, &text, text.len());
    one_line(&text, &why);
    why
}

/// The same, and the sentences in a text that is one short and one that is longer.
fn every_text(tally: &mut Tally, layout: u64, file: &[u8], room: u64) -> Explanation {
    let why = both(tally, layout, file, room);
    let text = second::explain::sentence_text(layout, file, room);
    for bytes in [text.len() - 1, text.len() + BEYOND] {
        lent(layout, file, room, &text, bytes);
    }
    why
}

/// A table of no room, and where that is ROOM one of one number short, one of exact and one of ample room; last a room that no table has. The explanation for that.
fn every_room(tally: &mut Tally, layout: u64, file: &[u8]) -> Explanation {
    let none = every_text(tally, layout, file, 0);
    let most = explain(layout, file, u64::MAX);
    if none.number != u64::from(ROOM) {
        assert_eq!(most, none);
        return most;
    }
    assert_eq!(explained(tally, layout, file, none.room - 1), none);
    assert_eq!(every_text(tally, layout, file, none.room), Explanation::default());
    assert_eq!(explained(tally, layout, file, none.room + 7), Explanation::default());
    assert_eq!(most, Explanation::default());
    most
}

/// One repair after the other: each time the reader's answer is one that 01 checks later.
fn repair(tally: &mut Tally, number: u64, mut file: Vec<u8>, mut why: Explanation) {
    let layout = Layout::of(number);
    let mut answers = Tally::of("repaired files");
    for _ in 0..REPAIRS {
        let Some(next) = repaired(layout, &file, &why) else {
            return;
        };
        tally.count(format!("{layout:?} {}", why.number));
        let then = explained(&mut answers, number, &next, ENOUGH as u64);
        let turns = (turn(layout, &file, &why), turn(layout, &next, &then));
        assert!(turns.0 < turns.1, "seed {}: {why:?}, then {then:?}: {}", seed(), shown(number, &file, ENOUGH as u64));
        (file, why) = (next, then);
    }
}

#[test]
fn generated_and_damaged() {
    let mut tally = Tally::of("explaining");
    let mut repairs = Tally::of("repairs");
    let mut generator = Generator::new(seed());
    for index in 0..FILES {
        let number = LAYOUTS[index as usize % LAYOUTS.len()];
        let layout = Layout::of(number);
        let file = match index / 2 % 4 {
            // More objects than there may be: by chance that is rare.
            _ if index % 4096 < 2 => layout.assemble(&[], &holding(layout, numbered(1025, |_| Item::null()))),
            0 => generator.next_file_as(layout),
            3 => generator.next_partly_sound(layout),
            _ => generator.next_damaged_file_as(layout),
        };
        let why = every_room(&mut tally, number, &file);
        repair(&mut repairs, number, file, why);
    }
    // All of 0 to 24; 1 and 6 twice; 8 to 12 three times, as they are the root's, an object's or a component's; 15 and 22 twice. In 1.0 no FOOTER, TYPE or odd index role.
    tally.report(39 + 36);
    // 1 to 22 but DEEP; in 1.0 no FOOTER or TYPE.
    repairs.report(21 + 19);
}

/// Files of a layout, with no room, and how many rules of the spans they show.
fn compare_files(of: &'static str, layout: Layout, files: Vec<Vec<u8>>, rules: usize) {
    let mut tally = Tally::of(of);
    for file in files {
        both(&mut tally, layout.number(), &file, 0);
    }
    tally.report(rules);
}

#[test]
fn every_place_changed() {
    for (layout, rules) in [(Layout::Current, [25, 33, 5]), (Layout::First, [24, 31, 4])] {
        compare_files("every byte of a file", layout, sweep::bytes_as(layout), rules[0]);
        compare_files("every node of a manifest", layout, sweep::nodes_as(layout), rules[1]);
        compare_files("every role of a format", layout, sweep::roles_as(layout), rules[2]);
        compare_files("names at their limits", layout, sweep::many_names_as(layout), 11);
    }
}

#[test]
fn every_two_faults() {
    compare_files("every two faults", Layout::Current, sweep::two_faults(), 28);
    compare_files("every two faults", Layout::First, sweep::two_faults_as(Layout::First), 25);
}

/// An object and its component of this name, both said since the offset is refused.
fn called(name: &[u8]) -> Vec<u8> {
    let of = |value: Item| Item::Map(vec![(Item::text(name), value)]);
    let parts = of(component("u8", 65, 1));
    frame::assemble(&[0; 120], &root(of(object(&[], "", parts))).shortest())
}

#[test]
fn names_with_every_byte() {
    let mut tally = Tally::of("names");
    for byte in 0..=255 {
        let why = both(&mut tally, 0, &called(&[byte]), 0);
        assert_eq!(why.number, u64::from(if byte < 128 { ALIGN } else { TEXT }), "{byte}");
    }
    let mut seen = [false; 256];
    let characters = (0..0x800).chain((0x800..0x11_0000).step_by(0x3F1)).filter_map(char::from_u32);
    let mut names: Vec<String> = characters.map(String::from).collect();
    names.push(names.concat());
    let forged = ["", "w\nrefused 1 SHORT: file under 24 bytes; at byte 0\n", "w; component x; bytes 1 to 2", "accepted\n", "\\0a"];
    names.extend(forged.map(String::from));
    for name in names {
        name.bytes().for_each(|byte| seen[usize::from(byte)] = true);
        let why = both(&mut tally, 0, &called(name.as_bytes()), 0);
        assert_eq!((why.number, why.object_name.length), (ALIGN.into(), name.len() as u64));
    }
    // UTF-8 has no C0, C1, and nothing above F4.
    assert_eq!(seen.iter().filter(|&&seen| seen).count(), 256 - 2 - 11);
    tally.report(2);
}

/// Holds both calls against the second program on a manifest of 1.2.0: the number and where it is.
fn at_limit(tally: &mut Tally, manifest: &[u8]) -> (u8, u64, u64) {
    let why = every_room(tally, 0, &frame::assemble(&[0; 120], manifest));
    (why.number as u8, why.object, why.component)
}

/// A root of a layout that holds these objects.
fn holding(layout: Layout, objects: Item) -> Vec<u8> {
    Item::map([("version", Item::text("1.0")), (layout.objects(), objects)]).shortest()
}

fn numbered(count: usize, value: impl Fn(usize) -> Item) -> Item {
    Item::Map((0..count).map(|at| (Item::text(at.to_string()), value(at))).collect())
}

/// As many objects and components as there may be, with a fault in the last.
#[test]
fn the_last_of_many() {
    let mut tally = Tally::of("the last of many");
    let sound = || component("u8", 64, 1);
    let parts = |last: Item| numbered(16, |at| if at == 15 { last.clone() } else { sound() });
    let of = |last: Item| root(numbered(1024, |at| if at == 1023 { last.clone() } else { object(&[], "", parts(sound())) })).shortest();
    let within = |last: Item| of(object(&[], "", parts(last)));
    assert_eq!(at_limit(&mut tally, &within(sound())), (0, 0, 0));
    assert_eq!(at_limit(&mut tally, &within(component("u8", 65, 1))), (ALIGN, 1023, 15));
    assert_eq!(at_limit(&mut tally, &within(named([]))), (MISSING, 1023, 15));
    assert_eq!(at_limit(&mut tally, &of(named([]))), (MISSING, 1023, 0));
    assert_eq!(at_limit(&mut tally, &of(Item::null())), (KIND, 1023, 0));
    assert_eq!(at_limit(&mut tally, &of(object(&[], "dense", parts(sound())))), (22, 1023, 0));
    let mut last = dense(data());
    set(&mut last, "shape", Item::Array(vec![Item::Unsigned(3)]));
    assert_eq!(at_limit(&mut tally, &of(last)), (LENGTH, 1023, 0));
    assert_eq!(at_limit(&mut tally, &root(numbered(1025, |_| Item::null())).shortest()), (COUNT, 0, 0));
    tally.report(9);
}

/// Manifests as long as they may be: names that are long, a name repeated far from the first, and a fault in the last byte.
#[test]
fn long_manifests() {
    let mut tally = Tally::of("long manifests");
    const LIMIT: usize = SIZE_LIMIT as usize;
    let long = |at: usize| Item::text(format!("{}{:06}", "n".repeat(16_000), at));
    let names = |count: usize| Item::Map((0..count).map(|at| (long(at.min(count - 2)), Item::null())).collect());
    assert_eq!(at_limit(&mut tally, &root(names(1024)).shortest()), (TWICE, 0, 0));
    let text = |end: &[u8]| root(Item::Map(vec![(Item::text([&vec![b'n'; LIMIT - 64], end].concat()), Item::null())])).shortest();
    assert_eq!(at_limit(&mut tally, &text(b"")), (KIND, 0, 0));
    assert_eq!(at_limit(&mut tally, &text(b"\xC3")), (TEXT, 0, 0));
    // each byte of both names is shown as three
    assert_eq!(every_room(&mut tally, 0, &called(&vec![b'\n'; 1 << 22])).number, ALIGN.into());
    let ended = |filler: usize, last: &[u8]| {
        let of = [("version", Item::text("1.2")), ("objects", named([])), ("x", Item::Bytes(vec![0; filler])), ("y", Item::Raw(last.to_vec()))];
        Item::map(of).shortest()
    };
    let nested = |levels: usize| [vec![0x81; levels], vec![0]].concat();
    for (last, more, number) in [(nested(30), 0, 0), (nested(31), 0, DEEP), (vec![0x1C], 0, CBOR), (vec![0x61], 0, CBOR), (nested(0), 1, BIG)] {
        let around = ended(1 << 17, &last).len() - (1 << 17);
        let manifest = ended(LIMIT + more - around, &last);
        assert_eq!((manifest.len(), at_limit(&mut tally, &manifest).0), (LIMIT + more, number));
    }
    tally.report(9);
}
