//! Two engines, one table (Req 11): loading, dropping, where rows stand, ROOM by the other's numbers, hostile states, and what one may see of the other.

use second::cases::{one_dense_object, NO_OBJECTS};
use second::engines::{
    drop_rows, engine_list, engine_view, holds, load, Call, Held, SHARED, STATE, TABLE,
};
use second::generate::Generator;
use second::layout::Layout;
use second::listing::listing;
use second::refusal::{BUSY, INDEX, ROOM, SHORT};
use second::columns::{COMPONENT_ROW, OBJECT_ROW};
use second::rows::{read, read_as, Answer};
use second::view::view;

const ROW: usize = OBJECT_ROW + COMPONENT_ROW;

fn refused(number: u8) -> Answer {
    Answer {
        number,
        ..Answer::default()
    }
}

#[test]
fn lengths_are_those_of_the_header() {
    assert_eq!(SHARED, 65_552);
    assert_eq!((TABLE, STATE), (65_536, 8));
}

#[test]
fn rows_stand_at_the_beginning_and_at_the_end() {
    let file = one_dense_object();
    let mut rows = vec![0; ROW];
    let answer = read(&file, &mut rows);
    let mut shared = vec![0; SHARED];
    assert_eq!(load(&mut shared, 0, 0, &file), answer);
    assert_eq!(shared[..ROW], rows);
    assert!(shared[ROW..TABLE].iter().all(|&n| n == 0));
    assert_eq!(
        shared[TABLE..TABLE + STATE],
        [1, ROW as u64, 1, 1, 72, 0, 0, 0]
    );
    assert!(shared[TABLE + STATE..].iter().all(|&n| n == 0));
    assert_eq!(load(&mut shared, 1, 7, &file), answer);
    assert_eq!(shared[TABLE - ROW..TABLE], rows);
    // the layout as it was given: 1 or else 0
    assert_eq!(shared[TABLE + STATE..], [1, ROW as u64, 1, 1, 72, 0, 0, 0]);
    let held = Held {
        place: (TABLE - ROW) as u64,
        numbers: ROW as u64,
        objects: 1,
        components: 1,
        start: 72,
        ..Held::default()
    };
    assert_eq!(holds(&shared, 1), held);
    assert_eq!(holds(&shared, 0), Held { place: 0, ..held });
    assert_eq!(engine_view(&shared, 1, &file, 0), Ok((64, 8)));
    assert_eq!(engine_view(&shared, 1, &file, 1), Err(INDEX));
    assert_eq!(engine_view(&shared, 1, &file[..70], 0), Err(INDEX));
    let text = listing(&file, &rows, 1, 1).unwrap();
    let mut lent = vec![7; text.len()];
    assert_eq!(
        engine_list(&shared, 0, &file, &mut lent),
        Ok(text.len() as u64)
    );
    assert_eq!(lent, text);
    assert_eq!(engine_list(&shared, 0, &file, &mut lent[1..]), Err(ROOM));
    assert_eq!(drop_rows(&mut shared, 0), 0);
    assert!(shared[..TABLE - ROW].iter().all(|&n| n == 0));
    assert_eq!(shared[TABLE - ROW..TABLE], rows);
    assert_eq!(drop_rows(&mut shared, 0), 0);
    assert_eq!(drop_rows(&mut shared, 1), 0);
    assert_eq!(shared, vec![0; SHARED]);
}

#[test]
fn a_file_without_objects_is_loaded() {
    let mut shared = vec![0; SHARED];
    assert_eq!(holds(&shared, 1), Held::default());
    assert_eq!(engine_view(&shared, 1, NO_OBJECTS, 0), Err(INDEX));
    assert_eq!(
        engine_list(&shared, 1, NO_OBJECTS, &mut [0; 99]),
        Err(INDEX)
    );
    assert_eq!(load(&mut shared, 1, 0, NO_OBJECTS).manifest_start, 8);
    let held = Held {
        place: 65_536,
        start: 8,
        ..Held::default()
    };
    assert_eq!(holds(&shared, 1), held);
    assert_eq!(engine_list(&shared, 1, NO_OBJECTS, &mut [0; 99]), Ok(23));
    assert_eq!(load(&mut shared, 1, 0, NO_OBJECTS), refused(BUSY));
}

#[test]
fn busy_before_the_file_is_looked_at() {
    let mut shared = vec![0; SHARED];
    assert_eq!(load(&mut shared, 0, 0, &[]), refused(SHORT));
    assert_eq!(shared, vec![0; SHARED]);
    load(&mut shared, 0, 0, &one_dense_object());
    let before = shared.clone();
    for file in [&b""[..], NO_OBJECTS] {
        assert_eq!(load(&mut shared, 0, 0, file), refused(BUSY));
    }
    assert_eq!(shared, before);
}

/// A file with this many objects and components; the number that says its layout.
fn file(objects: usize, components: usize) -> (u64, Vec<u8>) {
    Generator::new(7).file_with_rows(objects, components)
}

#[test]
fn room_is_given_exactly_if_the_free_numbers_are_fewer() {
    // The first leaves exactly room for one object with one component.
    let left = TABLE - ROW;
    let (objects, components) = (1..=1_024)
        .find_map(|objects| {
            let rest = left - OBJECT_ROW * objects;
            let components = rest / COMPONENT_ROW;
            let fills = rest % COMPONENT_ROW == 0 && components <= 16 * objects;
            fills.then_some((objects, components))
        })
        .unwrap();
    let (layout, large) = file(objects, components);
    let small = one_dense_object();
    let (more_layout, more) = file(2, 1);
    for engine in [0, 1] {
        let mut shared = vec![0; SHARED];
        let other = 1 - engine;
        assert_eq!(load(&mut shared, engine, layout, &large).number, 0);
        let before = shared.clone();
        assert_eq!(load(&mut shared, other, more_layout, &more), refused(ROOM));
        assert_eq!(shared, before);
        // a refusal of the reader comes before ROOM
        assert_eq!(load(&mut shared, other, more_layout, &[]), refused(SHORT));
        assert_eq!(load(&mut shared, other, 0, &small).number, 0);
        assert_eq!(holds(&shared, other).numbers, ROW as u64);
        // dropped rows are used again
        assert_eq!(drop_rows(&mut shared, engine), 0);
        assert_eq!(load(&mut shared, engine, more_layout, &more).number, 0);
        assert_eq!(drop_rows(&mut shared, engine), 0);
        assert_eq!(load(&mut shared, engine, layout, &large).number, 0);
    }
}

#[test]
fn states_that_no_calls_can_leave_are_index() {
    let file = one_dense_object();
    let mut sound = vec![0; SHARED];
    load(&mut sound, 0, 0, &file);
    let held = ROW as u64;
    let states: [(&[(usize, u64)], bool); 14] = [
        (&[], true),
        (&[(0, 2)], false),
        (&[(0, 0)], false),
        (&[(1, held + 1)], false),
        (&[(2, 2)], false),
        (&[(2, 2), (1, held + OBJECT_ROW as u64)], true),
        (&[(4, u64::MAX), (5, 3), (6, u64::MAX)], true),
        (&[(7, 1)], true),
        (&[(7, 2)], false),
        (&[(8, 1)], true),
        (&[(9, 1)], false),
        (&[(15, 1)], false),
        (&[(8, 1), (10, 4_096), (9, 65_536)], false),
        (&[(2, 1 << 60), (1, COMPONENT_ROW as u64)], false),
    ];
    for (changes, right) in states {
        let mut shared = sound.clone();
        for &(at, number) in changes {
            shared[TABLE + at] = number;
        }
        for engine in [0, 1] {
            let index = holds(&shared, engine).number;
            assert_eq!(index == 0, right, "{changes:?}");
            if !right {
                let before = shared.clone();
                assert_eq!(index, u64::from(INDEX));
                assert_eq!(load(&mut shared, engine, 0, &file), refused(INDEX));
                assert_eq!(drop_rows(&mut shared, engine), u64::from(INDEX));
                assert_eq!(engine_view(&shared, engine, &file, 0), Err(INDEX));
                assert_eq!(
                    engine_list(&shared, engine, &file, &mut [0; 99]),
                    Err(INDEX)
                );
                assert_eq!(shared, before);
            }
        }
    }
    for engine in [2, 1 << 32, u64::MAX] {
        assert_eq!(holds(&sound, engine).number, u64::from(INDEX));
        assert_eq!(load(&mut sound, engine, 0, &file), refused(INDEX));
        assert_eq!(drop_rows(&mut sound, engine), u64::from(INDEX));
    }
    for numbers in [0, 8, TABLE, SHARED - 1, SHARED + 1] {
        let mut shared = vec![0; numbers];
        assert_eq!(holds(&shared, 0).number, u64::from(INDEX));
        assert_eq!(load(&mut shared, 0, 0, &file), refused(INDEX));
    }
}

/// The table's own numbers aren't looked at by the state's test; listing and view are those over the engine's part.
#[test]
fn numbers_of_the_table_may_be_anything() {
    let file = one_dense_object();
    let mut shared = vec![0; SHARED];
    shared[..TABLE].fill(9);
    assert_eq!(load(&mut shared, 1, 0, &file).number, 0);
    assert!(shared[..TABLE - ROW].iter().all(|&n| n == 9));
    shared[TABLE - ROW + OBJECT_ROW + 5] = 3;
    assert_eq!(engine_view(&shared, 1, &file, 0), Ok((3, 8)));
    let part = &shared[TABLE - ROW..TABLE];
    assert_eq!(view(&file, part, 1, 1, 0), Ok((3, 8)));
}

#[test]
fn generated_histories_keep_engines_apart() {
    let mut generator = Generator::new(61);
    let mut loads = [0usize; 29];
    for _ in 0..300 {
        let history = generator.next_history();
        let poked = history
            .calls
            .iter()
            .any(|(call, _)| matches!(call, Call::Poke { .. }));
        let mut shared = vec![0; SHARED + 1];
        for &(call, lent) in &history.calls {
            let before = shared.clone();
            let answered = history.answer(&mut shared[..lent], call);
            assert_eq!(shared[SHARED], 0);
            let engine = match call {
                Call::Load { engine, file } => {
                    let number = answered.numbers[0];
                    loads[number as usize] += 1;
                    let (layout, bytes) = &history.files[file];
                    if number == 0 {
                        let mut rows = vec![0; TABLE];
                        let alone = read_as(*layout, bytes, &mut rows);
                        let held = holds(&shared[..lent], engine);
                        assert_eq!(answered.numbers[3], alone.objects);
                        let place = held.place as usize;
                        let numbers = held.numbers as usize;
                        assert_eq!(shared[place..place + numbers], rows[..numbers]);
                        assert_eq!(
                            shared[TABLE + 8 * engine as usize + 7],
                            Layout::of(*layout).number()
                        );
                    } else {
                        assert_eq!(shared, before);
                    }
                    engine
                }
                Call::Drop { engine } => engine,
                _ => {
                    let poke = matches!(call, Call::Poke { .. });
                    assert!(poke || shared == before);
                    continue;
                }
            };
            if engine > 1 || lent != SHARED {
                assert_eq!(shared, before);
                continue;
            }
            // Only the engine's own part and state changed.
            let other = 1 - engine;
            let held = holds(&before[..SHARED], other);
            let part = held.place as usize..(held.place + held.numbers) as usize;
            assert_eq!(shared[part.clone()], before[part]);
            let state = TABLE + 8 * other as usize..TABLE + 8 * other as usize + 8;
            assert_eq!(shared[state.clone()], before[state]);
            assert!(poked || holds(&shared[..SHARED], engine).number == 0);
        }
        if !poked {
            assert_eq!(drop_rows(&mut shared[..SHARED], 0), 0);
            assert_eq!(drop_rows(&mut shared[..SHARED], 1), 0);
            assert_eq!(shared, vec![0; SHARED + 1]);
        }
    }
    for number in [0, ROOM, INDEX, BUSY] {
        assert!(loads[usize::from(number)] > 10, "{number} {loads:?}");
    }
}

/// Two histories with the same own calls and the same numbers held by the other give an engine the same answers and rows.
#[test]
fn an_engine_sees_only_how_much_the_other_holds() {
    let mut generator = Generator::new(62);
    let (one, two) = (one_dense_object(), generator.file_with_rows(1, 1));
    for engine in [0, 1] {
        let other = 1 - engine;
        let mut a = vec![0; SHARED];
        let mut b = vec![0; SHARED];
        assert_eq!(load(&mut a, other, 0, &one).number, 0);
        assert_eq!(load(&mut b, other, two.0, &two.1).number, 0);
        for _ in 0..50 {
            let file = generator.next_file();
            assert_eq!(
                load(&mut a, engine, 0, &file),
                load(&mut b, engine, 0, &file)
            );
            let held = holds(&a, engine);
            assert_eq!(held, holds(&b, engine));
            let part = held.place as usize..(held.place + held.numbers) as usize;
            assert_eq!(a[part.clone()], b[part]);
            assert_eq!(drop_rows(&mut a, engine), drop_rows(&mut b, engine));
        }
    }
}
