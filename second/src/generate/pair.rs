//! Pairs of files for merging and comparing, and files of which only some objects are sound.

use super::file;
use super::first_layout;
use super::items;
use super::plan::{self, ObjectPlan, Plan};
use super::rng::Rng;
use super::FilePair;
use crate::layout::Layout;
use crate::refusal::{
    ALIGN, BOUNDS, COUNT, DTYPE, ENCODING, KEY, KIND, LENGTH, MISSING, RANK, ROLE, TEXT, TWICE,
    TYPE,
};
use crate::types::{Format, DTYPES};

pub fn pair(rng: &mut Rng) -> FilePair {
    let layouts = [(); 2].map(|()| match rng.one_in(3) {
        true => Layout::First,
        false => Layout::Current,
    });
    let mut plan = several_objects(rng);
    if layouts.contains(&Layout::First) {
        first_layout::fit(rng, &mut plan);
    }
    let mut other = plan.clone();
    match rng.index(6) {
        0 => {
            other = several_objects(rng);
            first_layout::fit(rng, &mut other);
        }
        1 | 2 => {
            for object in &mut other.objects {
                object.name.extend(b"'");
            }
        }
        _ => {
            for _ in 0..rng.index(5) {
                edit(rng, &mut other);
            }
        }
    }
    if rng.one_in(3) {
        other.attributes = plan::attributes(rng, 2);
    }
    if layouts.contains(&Layout::First) && rng.one_in(2) {
        first_layout::fit(rng, &mut other);
    }
    let [first_layout, second_layout] = layouts;
    let mut one = |layout, plan: &Plan| match rng.one_in(20) {
        true => file::file(rng, layout),
        false => sound_file(rng, layout, plan),
    };
    let (first, second) = (one(first_layout, &plan), one(second_layout, &other));
    FilePair {
        first_layout: first_layout.number(),
        first,
        second_layout: second_layout.number(),
        second,
    }
}

/// A few sound plans' objects together.
pub fn several_objects(rng: &mut Rng) -> Plan {
    let mut plan = Plan::sound(rng);
    while rng.one_in(2) {
        plan.objects.extend(Plan::sound(rng).objects);
    }
    plan::unique(&mut plan.objects, |object| &mut object.name);
    plan
}

/// The plan's file with no damage, its blobs alike in all files but for a few bytes.
fn sound_file(rng: &mut Rng, layout: Layout, plan: &Plan) -> Vec<u8> {
    let (root, manifest_start) = file::tree(rng, layout, plan);
    let mut blobs = vec![0; manifest_start as usize - 8];
    for (at, byte) in blobs.iter_mut().enumerate() {
        *byte = 17 * (at + 8) as u8 % 64;
    }
    for _ in 0..*rng.pick(&[0, 0, 0, 1, 3]) {
        if let Some(byte) = rng.pick_mut(&mut blobs) {
            *byte ^= 1;
        }
    }
    let manifest = items::encoded(rng, &root);
    layout.assemble(&blobs, &manifest)
}

/// One change, small; most leave the plan sound.
fn edit(rng: &mut Rng, plan: &mut Plan) {
    let name = items::utf8(rng);
    let (code, way) = (rng.index(DTYPES.len()), rng.index(14));
    match way {
        0 => rng.shuffle(&mut plan.objects),
        1 => rng.remove(&mut plan.objects),
        2 => plan.objects.extend(Plan::sound(rng).objects),
        _ => {
            if let Some(object) = rng.pick_mut(&mut plan.objects) {
                edit_object(rng, object, way, name, code);
            }
        }
    }
    plan::unique(&mut plan.objects, |object| &mut object.name);
}

fn edit_object(rng: &mut Rng, object: &mut ObjectPlan, way: usize, text: Vec<u8>, code: usize) {
    let free = matches!(
        Format::of(&object.format),
        Format::Other | Format::QuantizedGroup
    );
    match way {
        3 => object.name = text,
        4 => object.shape.reverse(),
        5 => object.shape.push(1),
        6 if free => object.format = text,
        7 => rng.shuffle(&mut object.components),
        8 => rng.remove(&mut object.components),
        9 => rng.repeat(&mut object.components),
        10 => object.attributes = plan::attributes(rng, 4),
        _ => {
            if let Some(component) = rng.pick_mut(&mut object.components) {
                match way {
                    11 => component.dtype = code,
                    12 => component.digest = Some(text),
                    13 if free => component.length += 1 + rng.below(9),
                    _ => component.logical = rng.one_in(2).then_some(text),
                }
            }
        }
    }
    plan::unique(&mut object.components, |component| &mut component.name);
}

/// Several objects, some of them spoiled for refusals that belong to an object.
pub fn partly_sound(rng: &mut Rng, layout: Layout) -> Vec<u8> {
    const FAULTS: [u8; 14] = [
        KIND, KEY, TEXT, TWICE, MISSING, COUNT, DTYPE, ENCODING, TYPE, ALIGN, BOUNDS, RANK, ROLE,
        LENGTH,
    ];
    let mut plan = several_objects(rng);
    plan.objects.extend(Plan::sound(rng).objects);
    plan::unique(&mut plan.objects, |object| &mut object.name);
    if layout == Layout::First {
        first_layout::fit(rng, &mut plan);
    }
    let faults: Vec<u8> = (0..rng.index(5)).map(|_| *rng.pick(&FAULTS)).collect();
    for &number in &faults {
        plan.spoil(rng, number);
    }
    let mut file = file::framed(rng, layout, &plan, &faults);
    if let Ok(range) = layout.manifest_range(&file) {
        let blobs = file.iter_mut().enumerate().take(range.start).skip(64);
        blobs.for_each(|(at, byte)| *byte = (at % 251) as u8);
    }
    file
}
