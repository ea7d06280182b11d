//! A seeded generator of files, single CBOR items and writer's rows, sound and damaged.

mod damage;
mod file;
mod first_layout;
mod floats;
mod history;
mod items;
mod pair;
mod placement;
mod plan;
pub mod rng;
mod rowset;
mod shuffle;

use crate::engines::History;
use crate::layout::Layout;
use crate::planned::{self, Asked};
use crate::writer::{self, Written};
use rng::Rng;

/// Gives the same sequence for the same seed and calls.
pub struct Generator {
    rng: Rng,
}

/// What the writer is asked with.
#[derive(Clone, Debug, PartialEq, Eq)]
pub struct RowSet {
    pub rows: Vec<u64>,
    pub objects: u64,
    pub components: u64,
    pub attributes_place: u64,
    pub attributes_length: u64,
    pub buffer: Vec<u8>,
}

impl RowSet {
    /// The writer's answer to this.
    pub fn write(&self, out: &mut [u8]) -> Written {
        writer::write(
            &self.rows,
            self.objects,
            self.components,
            self.attributes_place,
            self.attributes_length,
            &self.buffer,
            out,
        )
    }
}

/// What the writer is asked with, and a plan for its blobs.
#[derive(Clone, Debug, PartialEq, Eq)]
pub struct PlannedSet {
    pub set: RowSet,
    pub plan: Vec<u64>,
    pub ceiling: u64,
}

impl PlannedSet {
    /// The planned writer's answer to this.
    pub fn write(&self, out: &mut [u8]) -> Written {
        let asked = Asked {
            rows: &self.set.rows,
            objects: self.set.objects,
            components: self.set.components,
            attributes_place: self.set.attributes_place,
            attributes_length: self.set.attributes_length,
            buffer: &self.set.buffer,
            plan: &self.plan,
            ceiling: self.ceiling,
        };
        planned::write_planned(asked, out)
    }
}

/// Two files, each in its layout.
#[derive(Clone, Debug, PartialEq, Eq)]
pub struct FilePair {
    pub first_layout: u64,
    pub first: Vec<u8>,
    pub second_layout: u64,
    pub second: Vec<u8>,
}

/// One of the files of a seed, made for itself: every second one is for a chosen refusal, the others are damaged anywhere.
pub fn nth_file(seed: u64, index: u64) -> Vec<u8> {
    nth_file_as(Layout::Current, seed, index)
}

/// The same in a layout.
pub fn nth_file_as(layout: Layout, seed: u64, index: u64) -> Vec<u8> {
    let mut rng = Rng::new(Rng::new(seed ^ index.rotate_left(32)).number());
    match index % 2 {
        0 => file::file(&mut rng, layout),
        _ => damage::file(&mut rng, layout),
    }
}

/// The history at an index, by a seed.
pub fn nth_history(seed: u64, index: u64) -> History {
    history::history(&mut Rng::new(Rng::new(seed ^ index.rotate_left(32)).number()))
}

impl Generator {
    pub fn new(seed: u64) -> Generator {
        Generator {
            rng: Rng::new(seed),
        }
    }

    /// A file: sound, with one fault for any of refusals 1 to 23, with two, at a limit or one past
    /// it, cut short or with bytes changed. Most are under 1 KiB; a few are as large as limits.
    pub fn next_file(&mut self) -> Vec<u8> {
        self.next_file_as(Layout::Current)
    }

    /// The same in a layout; 1.0 gets no FOOTER and no TYPE.
    pub fn next_file_as(&mut self, layout: Layout) -> Vec<u8> {
        file::file(&mut self.rng, layout)
    }

    /// A file that was sound before its tree, its manifest's bytes or its frame were changed anywhere.
    pub fn next_damaged_file(&mut self) -> Vec<u8> {
        self.next_damaged_file_as(Layout::Current)
    }

    /// The same in a layout.
    pub fn next_damaged_file_as(&mut self, layout: Layout) -> Vec<u8> {
        damage::file(&mut self.rng, layout)
    }

    /// One CBOR item, sound or damaged, sometimes with bytes after it.
    pub fn next_item(&mut self) -> Vec<u8> {
        items::item(&mut self.rng)
    }

    /// Cuts bytes short, changes some of them, or puts some behind them.
    pub fn damage(&mut self, bytes: &mut Vec<u8>) {
        items::damage(&mut self.rng, bytes)
    }

    /// Rows and a buffer for the writer, sound or not.
    pub fn next_rows(&mut self) -> RowSet {
        rowset::rows(&mut self.rng)
    }

    /// Two files, mostly accepted: the second is the first with small changes, or another one.
    pub fn next_pair(&mut self) -> FilePair {
        pair::pair(&mut self.rng)
    }

    /// Two files that pass checks 1 to 7, sound or not, whose manifests start at the same place and are alike: the second's fields stand in another order, and
    /// unknown ones and the minor version differ.
    pub fn next_shuffled(&mut self, layout: Layout) -> FilePair {
        shuffle::pair(&mut self.rng, layout)
    }

    /// Two accepted files whose manifests would be alike, had two objects (or two components of one object) of the second not changed places.
    pub fn next_exchanged(&mut self, layout: Layout, level: usize) -> FilePair {
        shuffle::exchanged(&mut self.rng, layout, level)
    }

    /// A file of several objects, of which some have faults of their own.
    pub fn next_partly_sound(&mut self, layout: Layout) -> Vec<u8> {
        pair::partly_sound(&mut self.rng, layout)
    }

    /// An accepted file with f32 components among others, which overlap, nest, are empty or end at the manifest's edge, over numbers of every kind.
    pub fn next_floats(&mut self, layout: Layout) -> Vec<u8> {
        floats::file(&mut self.rng, layout)
    }

    /// Calls of two engines over files of many sizes, with states and lengths from outside now and then.
    pub fn next_history(&mut self) -> History {
        history::history(&mut self.rng)
    }

    /// An accepted file, in either layout, with this many objects and components; the number that says its layout.
    pub fn file_with_rows(&mut self, objects: usize, components: usize) -> (u64, Vec<u8>) {
        history::with_rows(&mut self.rng, objects, components)
    }

    /// Rows with a plan: rising, falling or in any order, sound or with offsets that touch, overlap, are one off, too few or too many.
    pub fn next_planned(&mut self) -> PlannedSet {
        placement::planned(&mut self.rng)
    }
}
