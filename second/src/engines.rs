//! Two engines, one table (Req 11): one lent list of numbers holds both engines' rows and states; each loads and drops its own.

use crate::layout::Layout;
use crate::listing;
use crate::refusal::{BUSY, INDEX, ROOM};
use crate::columns::{COMPONENT_ROW, OBJECT_ROW};
use crate::rows::{read_as, Answer};
use crate::view;
use std::ops::Range;

/// Numbers of the table that both share.
pub const TABLE: usize = 65_536;
/// Numbers of an engine's state, which stand after the table.
pub const STATE: usize = 8;
/// All numbers that are lent.
pub const SHARED: usize = TABLE + 2 * STATE;

/// An engine's state, in the order of its eight numbers; all zeros if nothing is loaded.
#[derive(Clone, Copy, Debug, Default, PartialEq, Eq)]
struct State {
    loaded: u64,
    held: u64,
    objects: u64,
    components: u64,
    start: u64,
    attributes_place: u64,
    attributes_length: u64,
    layout: u64,
}

impl State {
    fn of(shared: &[u64], engine: usize) -> State {
        let numbers = &shared[state_range(engine)];
        State {
            loaded: numbers[0],
            held: numbers[1],
            objects: numbers[2],
            components: numbers[3],
            start: numbers[4],
            attributes_place: numbers[5],
            attributes_length: numbers[6],
            layout: numbers[7],
        }
    }

    fn numbers(&self) -> [u64; STATE] {
        [
            self.loaded,
            self.held,
            self.objects,
            self.components,
            self.start,
            self.attributes_place,
            self.attributes_length,
            self.layout,
        ]
    }

    /// Whether calls from zeros could leave this.
    fn is_sound(&self) -> bool {
        let rows = u128::from(self.objects) * OBJECT_ROW as u128
            + u128::from(self.components) * COMPONENT_ROW as u128;
        match self.loaded {
            0 => *self == State::default(),
            1 => u128::from(self.held) == rows && self.layout <= 1,
            _ => false,
        }
    }
}

fn state_range(engine: usize) -> Range<usize> {
    let start = TABLE + engine * STATE;
    start..start + STATE
}

/// The engine's own state and the other's; nothing (INDEX) for a wrong engine, a wrong count of numbers or states that no calls can leave.
fn states(shared: &[u64], engine: u64) -> Option<(State, State)> {
    if engine > 1 || shared.len() != SHARED {
        return None;
    }
    let own = State::of(shared, engine as usize);
    let other = State::of(shared, 1 - engine as usize);
    let both = u128::from(own.held) + u128::from(other.held);
    let sound = own.is_sound() && other.is_sound() && both <= TABLE as u128;
    sound.then_some((own, other))
}

/// Where the rows of an engine stand: engine 0's at the table's beginning, engine 1's at its end.
fn part(engine: u64, held: u64) -> Range<usize> {
    let held = held as usize;
    match engine {
        0 => 0..held,
        _ => TABLE - held..TABLE,
    }
}

/// Loads a file's rows; INDEX, BUSY, the reader's refusal, ROOM.
pub fn load(shared: &mut [u64], engine: u64, layout: u64, file: &[u8]) -> Answer {
    let refused = |number| Answer {
        number,
        ..Answer::default()
    };
    let Some((own, other)) = states(shared, engine) else {
        return refused(INDEX);
    };
    if own.loaded == 1 {
        return refused(BUSY);
    }
    let free = TABLE - other.held as usize;
    let mut rows = vec![0; free];
    let answer = read_as(layout, file, &mut rows);
    if answer.number != 0 {
        debug_assert!(answer.number <= ROOM);
        return answer;
    }
    let held = answer.objects * OBJECT_ROW as u64 + answer.components * COMPONENT_ROW as u64;
    shared[part(engine, held)].copy_from_slice(&rows[..held as usize]);
    let state = State {
        loaded: 1,
        held,
        objects: answer.objects,
        components: answer.components,
        start: answer.manifest_start,
        attributes_place: answer.attributes_place,
        attributes_length: answer.attributes_length,
        layout: Layout::of(layout).number(),
    };
    shared[state_range(engine as usize)].copy_from_slice(&state.numbers());
    answer
}

/// Gives the engine's numbers back as zeros; 0, or INDEX.
pub fn drop_rows(shared: &mut [u64], engine: u64) -> u64 {
    let Some((own, _)) = states(shared, engine) else {
        return INDEX.into();
    };
    shared[part(engine, own.held)].fill(0);
    shared[state_range(engine as usize)].fill(0);
    0
}

/// What `zt_holds` answers, in the order of `zt_held`.
#[derive(Clone, Copy, Debug, Default, PartialEq, Eq)]
pub struct Held {
    pub number: u64,
    pub place: u64,
    pub numbers: u64,
    pub objects: u64,
    pub components: u64,
    pub start: u64,
    pub attributes_place: u64,
    pub attributes_length: u64,
}

impl Held {
    /// Its numbers in the order of the C struct.
    pub fn numbers(&self) -> [u64; 8] {
        [
            self.number,
            self.place,
            self.numbers,
            self.objects,
            self.components,
            self.start,
            self.attributes_place,
            self.attributes_length,
        ]
    }
}

/// Where the engine's rows stand in the table; all 0 if it has none loaded.
pub fn holds(shared: &[u64], engine: u64) -> Held {
    match states(shared, engine) {
        None => Held {
            number: INDEX.into(),
            ..Held::default()
        },
        Some((own, _)) if own.loaded == 0 => Held::default(),
        Some((own, _)) => Held {
            number: 0,
            place: part(engine, own.held).start as u64,
            numbers: own.held,
            objects: own.objects,
            components: own.components,
            start: own.start,
            attributes_place: own.attributes_place,
            attributes_length: own.attributes_length,
        },
    }
}

/// The engine's rows and its counts, if it has loaded.
fn loaded(shared: &[u64], engine: u64) -> Option<(&[u64], State)> {
    let (own, _) = states(shared, engine)?;
    let rows = &shared[part(engine, own.held)];
    (own.loaded == 1).then_some((rows, own))
}

/// A component of the engine's file: offset and length, or INDEX.
pub fn engine_view(shared: &[u64], engine: u64, file: &[u8], index: u64) -> Result<(u64, u64), u8> {
    let (rows, own) = loaded(shared, engine).ok_or(INDEX)?;
    view::view(file, rows, own.objects, own.components, index)
}

/// Puts the listing of the engine's file, whose length is answered; INDEX, ROOM.
pub fn engine_list(shared: &[u64], engine: u64, file: &[u8], text: &mut [u8]) -> Result<u64, u8> {
    let (rows, own) = loaded(shared, engine).ok_or(INDEX)?;
    let listing = listing::listing(file, rows, own.objects, own.components).ok_or(INDEX)?;
    let part = text.get_mut(..listing.len()).ok_or(ROOM)?;
    part.copy_from_slice(&listing);
    Ok(listing.len() as u64)
}

/// One call of a history; `file` is a place among the history's files.
#[derive(Clone, Copy, Debug, PartialEq, Eq)]
pub enum Call {
    Load {
        engine: u64,
        file: usize,
    },
    Drop {
        engine: u64,
    },
    Holds {
        engine: u64,
    },
    View {
        engine: u64,
        file: usize,
        index: u64,
    },
    List {
        engine: u64,
        file: usize,
        room: usize,
    },
    /// No call: a number of what is lent is changed from outside.
    Poke {
        at: usize,
        number: u64,
    },
}

/// Calls of both engines over a few files, each with its layout. `lent` says how many numbers each call is lent.
#[derive(Clone, Debug, PartialEq, Eq)]
pub struct History {
    pub files: Vec<(u64, Vec<u8>)>,
    pub calls: Vec<(Call, usize)>,
}

/// What a call answers, as numbers: those of its struct in order, and the text that was put.
#[derive(Clone, Debug, Default, PartialEq, Eq)]
pub struct Answered {
    pub numbers: Vec<u64>,
    pub text: Vec<u8>,
}

impl History {
    /// Makes one call of this history.
    pub fn answer(&self, shared: &mut [u64], call: Call) -> Answered {
        let mut text = Vec::new();
        let numbers = match call {
            Call::Load { engine, file } => {
                let (layout, file) = &self.files[file];
                load(shared, engine, *layout, file).numbers().to_vec()
            }
            Call::Drop { engine } => vec![drop_rows(shared, engine)],
            Call::Holds { engine } => holds(shared, engine).numbers().to_vec(),
            Call::View {
                engine,
                file,
                index,
            } => match engine_view(shared, engine, &self.files[file].1, index) {
                Ok((offset, length)) => vec![0, offset, length],
                Err(number) => vec![number.into(), 0, 0],
            },
            Call::List { engine, file, room } => {
                let mut lent = vec![0; room];
                let listed = engine_list(shared, engine, &self.files[file].1, &mut lent);
                text = lent;
                match listed {
                    Ok(length) => vec![0, length],
                    Err(number) => vec![number.into(), 0],
                }
            }
            Call::Poke { at, number } => {
                if let Some(place) = shared.get_mut(at) {
                    *place = number;
                }
                Vec::new()
            }
        };
        Answered { numbers, text }
    }
}
