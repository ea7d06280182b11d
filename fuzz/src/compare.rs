//! Both programs on one input: their answers, and all that they write or must leave, are the same.

use crate::input::{decode, Question};
use against::{beside, Answer, Listed};
use second::columns::numbers;
use second::explain::sentence_text;
use second::generate::RowSet;
use second::layout::Layout;
use second::refusal::DEEP;
use std::fmt::Debug;

/// What is lent beyond the exact room, and must stay.
const BEYOND: usize = 7;

pub fn input(bytes: &[u8]) {
    match decode(bytes) {
        Some((Question::Read(layout, file), near)) => drop(reading(layout, &file, near)),
        Some((Question::Write(set), near)) => writing(&set, near),
        None => {}
    }
}

/// Acceptance, the table with ample room and with room near the exact one, why for both, the listing: the refusal's number.
fn reading(layout: Layout, file: &[u8], near: isize) -> u64 {
    // Ample: the known keys of an object and of a component are longer than their rows.
    let (answer, table) = read(layout, file, file.len());
    assert_eq!(against::box_accept_as(layout.number(), file), answer.number, "zt_accept_as");
    if layout == Layout::Current {
        assert_eq!(against::box_accept(file), answer.number, "zt_accept");
    }
    let exact = numbers(answer.objects as usize, answer.components as usize);
    let close = exact.saturating_add_signed(near);
    read(layout, file, close);
    for room in [file.len(), close] {
        explaining(layout.number(), file, room as u64, near);
    }
    if answer.number == 0 {
        listing(file, &table[..exact], &answer, near);
    }
    answer.number
}

fn read(layout: Layout, file: &[u8], room: usize) -> (Answer, Vec<u64>) {
    let lent = (0..room as u64).map(|at| !at).collect();
    let number = layout.number();
    let second = |table: &mut [u64]| spoiled(beside::read_as(number, file, table));
    match layout {
        Layout::Current => agreed("zt_read", lent, |table| against::read(file, table), second),
        Layout::First => agreed("zt_read_as", lent, |table| against::read_as(number, file, table), second),
    }
}

/// Wrong on purpose where that was asked for.
fn spoiled(mut answer: Answer) -> Answer {
    if cfg!(feature = "spoiled") && answer.number == DEEP.into() {
        answer.number += 1;
    }
    answer
}

fn listing(file: &[u8], table: &[u64], answer: &Answer, near: isize) {
    let (objects, components) = (answer.objects, answer.components);
    let text = second::listing::listing(file, table, objects, components);
    let proved = |held: &mut [u8]| against::list(file, table, objects, components, held);
    printing("zt_list", text.as_deref(), near, proved);
}

/// The explanation for a table of this room, and the sentence.
fn explaining(layout: u64, file: &[u8], room: u64, near: isize) {
    let (proved, second) = (against::explain(layout, file, room), beside::explain(layout, file, room));
    assert_eq!(proved, second, "zt_explain with room {room}, and the second program");
    let text = sentence_text(layout, file, room);
    printing("zt_sentence", Some(&text), near, |held| against::sentence(layout, file, room, held));
}

/// A call that puts this text, or refuses, with ample room and with room near the exact one.
fn printing(call: &str, text: Option<&[u8]>, near: isize, proved: impl Fn(&mut [u8]) -> Listed) {
    let exact = text.map_or(0, <[u8]>::len);
    for room in [exact + BEYOND, exact.saturating_add_signed(near)] {
        agreed(call, unlike(room), &proved, |held| beside::list(text, held));
    }
}

/// The file with ample room and with room near the exact one; it is read back.
fn writing(set: &RowSet, near: isize) {
    // Ample: no number of a row adds more than a part of the buffer and 64 bytes, nor does the root or the frame.
    let ample = (set.rows.len() + 2) * (set.buffer.len() + 64);
    let exact = beside::write(set, &mut vec![0; ample]).length as usize;
    let write = |room| agreed("zt_write", unlike(room), |out| against::write(set, out), |out| beside::write(set, out));
    let (written, file) = write(exact + BEYOND);
    write(exact.saturating_add_signed(near));
    if written.number == 0 {
        assert_eq!(reading(Layout::Current, &file[..exact], near), 0, "a written file is refused");
    }
}

/// Bytes that tell whether they were touched or moved.
fn unlike(room: usize) -> Vec<u8> {
    (0..room).map(|at| !(at as u8)).collect()
}

/// Lends the same to both calls.
fn agreed<T: Clone + PartialEq, A: Debug + PartialEq>(
    call: &str,
    lent: Vec<T>,
    proved: impl Fn(&mut [T]) -> A,
    second: impl Fn(&mut [T]) -> A,
) -> (A, Vec<T>) {
    let room = lent.len();
    let (mut ours, mut theirs) = (lent.clone(), lent);
    let answer = proved(&mut ours);
    assert_eq!(answer, second(&mut theirs), "{call} with room {room}, and the second program");
    assert!(ours == theirs, "{call} with room {room}: what was lent holds something else than by the second program");
    (answer, ours)
}
