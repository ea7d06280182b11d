//! Two engines that share a table, against the second program: histories of calls of both, over files of many sizes in both layouts, with files that fill what is free exactly or miss it by
//! a row, states spoiled from outside, wrong lengths and engines that don't exist. After every call the answers, the texts and every number that is shared are held against each other.

use against::tally::{rounds, seed, Tally};
use second::columns::{COMPONENT_ROW, OBJECT_ROW};
use second::engines::{Answered, Call, History, SHARED, TABLE};
use second::generate::{nth_history, Generator};
use std::thread;

const HISTORIES: u64 = rounds(20_000);
const THREADS: u64 = 2;
const ROOM: u64 = 24;
const INDEX: u64 = 26;
const BUSY: u64 = 28;

/// What the library answers, in the second program's shape.
fn proved(history: &History, shared: &mut [u64], call: Call) -> Answered {
    let file = |place: usize| &history.files[place].1[..];
    let mut text = Vec::new();
    let numbers = match call {
        Call::Load { engine, file: place } => {
            let a = against::load(shared, engine, history.files[place].0, file(place));
            vec![a.number, a.object, a.component, a.objects, a.components, a.start, a.place, a.size]
        }
        Call::Drop { engine } => vec![against::drop_rows(shared, engine)],
        Call::Holds { engine } => {
            let h = against::holds(shared, engine);
            vec![h.number, h.place, h.numbers, h.objects, h.components, h.start, h.attributes_place, h.attributes_length]
        }
        Call::View { engine, file: place, index } => {
            let r = against::engine_view(shared, engine, file(place), index);
            vec![r.number, r.offset, r.length]
        }
        Call::List { engine, file: place, room } => {
            text = vec![0; room];
            let t = against::engine_list(shared, engine, file(place), &mut text);
            vec![t.number, t.length]
        }
        Call::Poke { .. } => return history.answer(shared, call),
    };
    Answered { numbers, text }
}

fn label(call: Call, answered: &Answered) -> String {
    let nothing_held = matches!(call, Call::Holds { .. }) && answered.numbers.iter().all(|&n| n == 0);
    let said = match answered.numbers.first() {
        None => "",
        Some(0) if nothing_held => " nothing",
        Some(0) => " answered",
        Some(&ROOM) => " ROOM",
        Some(&INDEX) => " INDEX",
        Some(&BUSY) => " BUSY",
        Some(_) => " refused",
    };
    let what = match call {
        Call::Load { .. } => "load",
        Call::Drop { .. } => "drop",
        Call::Holds { .. } => "holds",
        Call::View { .. } => "view",
        Call::List { .. } => "list",
        Call::Poke { .. } => "poked",
    };
    format!("{what}{said}")
}

/// One history from zeros, on both sides. Both lists are left as zeros.
fn compared(tally: &mut Tally, index: u64, ours: &mut [u64], theirs: &mut [u64]) {
    let history = nth_history(seed(), index);
    for (at, &(call, lent)) in history.calls.iter().enumerate() {
        let first = proved(&history, &mut ours[..lent], call);
        let second = history.answer(&mut theirs[..lent], call);
        tally.compare(label(call, &second), first, second, || format!("history {index}, call {at}"));
        assert!(ours == theirs, "seed {}, history {index}: numbers differ after call {at}, {call:?}", seed());
    }
    ours.fill(0);
    theirs.fill(0);
}

#[test]
fn histories() {
    let part = |first: u64| {
        let mut tally = Tally::of("two engines");
        let (mut ours, mut theirs) = (vec![0; SHARED + 1], vec![0; SHARED + 1]);
        for index in (first..HISTORIES).step_by(THREADS as usize) {
            compared(&mut tally, index, &mut ours, &mut theirs);
        }
        tally
    };
    let mut all = Tally::of("two engines");
    thread::scope(|scope| {
        let parts: Vec<_> = (0..THREADS).map(|first| scope.spawn(move || part(first))).collect();
        for part in parts {
            all.add(part.join().expect("the answers agree"));
        }
    });
    // load: answered, refused, ROOM, BUSY, INDEX; drop: answered, INDEX; holds: answered, nothing, INDEX; view: answered, INDEX; list: answered, ROOM, INDEX; poked
    all.report(16);
}

/// The other engine's file needs exactly what is free, or four numbers more or less: rows are multiples of four numbers, so nothing lies between.
#[test]
fn exact_fits() {
    let mut generator = Generator::new(seed());
    let mut shared = vec![0; SHARED];
    for (objects, components) in [(700, 3_000), (1_024, 2_731), (1, 16), (1_000, 4_000)] {
        let held = OBJECT_ROW * objects + COMPONENT_ROW * components;
        for engine in [0, 1] {
            for over in [-4_i64, 0, 4] {
                let needed = (TABLE - held) as i64 + over;
                let Some((own, parts)) = rows_of(needed as usize) else { panic!("no rows take {needed} numbers") };
                let (layout, file) = generator.file_with_rows(objects, components);
                let (own_layout, own_file) = generator.file_with_rows(own, parts);
                assert_eq!(against::load(&mut shared, 1 - engine, layout, &file).number, 0);
                let before = shared.clone();
                let answer = against::load(&mut shared, engine, own_layout, &own_file);
                assert_eq!(answer.number, if over > 0 { ROOM } else { 0 }, "{needed} numbers beside {held}");
                assert!(over <= 0 || shared == before, "ROOM changed a number");
                assert_eq!(against::drop_rows(&mut shared, engine), 0);
                assert_eq!(against::drop_rows(&mut shared, 1 - engine), 0);
                assert!(shared.iter().all(|&n| n == 0));
            }
        }
    }
}

/// Objects and components whose rows take just so many numbers.
fn rows_of(numbers: usize) -> Option<(usize, usize)> {
    (0..=1_024).find_map(|objects: usize| {
        let rest = numbers.checked_sub(OBJECT_ROW * objects)?;
        let components = rest / COMPONENT_ROW;
        (rest % COMPONENT_ROW == 0 && components <= 16 * objects).then_some((objects, components))
    })
}
