//! Why a file was refused (Req 08): its readings, agreement with the reader on many files, and repairs that move the answer on.

#[path = "readings/explaining.rs"]
mod readings;

use second::cbor;
use second::explain::{explain, sentence, sentence_text};
use second::generate::{nth_file_as, Generator};
use second::layout::Layout;
use second::refusal::{CBOR, DEEP, LENGTH};
use second::repair::{repaired, turn};
use second::sweep;

const AMPLE: u64 = 1 << 40;

/// Number and indices are the reader's; what stands at a span is one whole item, but for 1 to 7.
fn agrees(layout: Layout, file: &[u8], seen: &mut [usize; 25]) {
    let answer = explain(layout.number(), file, AMPLE);
    let indices = (answer.number as u8, answer.object, answer.component);
    assert_eq!(indices, layout.verdict(file));
    seen[answer.number as usize] += 1;
    let span = answer.span.of(file).expect("a span lies in its file");
    if answer.number >= 8 {
        assert_eq!(cbor::skip_item(span, 32), Ok(span.len()));
        let manifest = layout.manifest_range(file).unwrap();
        assert!(manifest.start as u64 <= answer.span.place);
    }
    let line = sentence_text(layout.number(), file, AMPLE);
    assert_eq!(line.iter().filter(|&&byte| byte == b'\n').count(), 1);
    assert!(line
        .iter()
        .all(|&byte| byte == b'\n' || (32..127).contains(&byte)));
}

#[test]
fn generated_files_are_explained_as_read() {
    for layout in Layout::ALL {
        let mut seen = [0; 25];
        for index in 0..20_000 {
            agrees(layout, &nth_file_as(layout, 51, index), &mut seen);
        }
        let mut generator = Generator::new(52);
        for _ in 0..5_000 {
            agrees(layout, &generator.next_partly_sound(layout), &mut seen);
        }
        for (number, &count) in seen[..24].iter().enumerate() {
            let never = layout == Layout::First && [3, 18].contains(&number);
            assert_eq!(count > 0, !never, "{layout:?} {number}");
        }
    }
}

#[test]
fn every_change_of_a_sound_file_is_explained_as_read() {
    for layout in Layout::ALL {
        let mut seen = [0; 25];
        let files = [
            sweep::bytes_as(layout),
            sweep::nodes_as(layout),
            sweep::roles_as(layout),
            sweep::two_faults_as(layout),
            sweep::many_names_as(layout),
        ];
        for file in files.concat() {
            agrees(layout, &file, &mut seen);
        }
        // No file of these is SHORT.
        for (number, &count) in seen[..24].iter().enumerate().skip(2) {
            let never = layout == Layout::First && [3, 18].contains(&number);
            assert_eq!(count > 0, !never, "{layout:?} {number}");
        }
    }
}

/// Whatever is repaired, the next fault is one that 01 checks later, so every check before it was passed.
#[test]
fn a_repair_moves_the_answer_on() {
    const STEPS: usize = 40;
    for layout in Layout::ALL {
        let (mut seen, mut sound) = ([0usize; 25], 0);
        for index in 0..20_000 {
            let mut file = nth_file_as(layout, 53, index);
            for _ in 0..STEPS {
                let why = explain(layout.number(), &file, AMPLE);
                let Some(next) = repaired(layout, &file, &why) else {
                    sound += usize::from(why.number == 0);
                    break;
                };
                seen[why.number as usize] += 1;
                let then = explain(layout.number(), &next, AMPLE);
                let turns = (turn(layout, &file, &why), turn(layout, &next, &then));
                assert!(turns.0 < turns.1, "{layout:?} {index}: {why:?}, then {then:?}: {turns:?}");
                file = next;
            }
        }
        let never = |number: u8| [0, DEEP, LENGTH, 24].contains(&number) || layout == Layout::First && [3, 18].contains(&number);
        for number in 0..=24 {
            assert_eq!(seen[usize::from(number)] > 0, !never(number), "{layout:?} {number}");
        }
        assert!(seen[usize::from(CBOR)] > 100 && sound > 10_000, "{seen:?} {sound}");
    }
}
