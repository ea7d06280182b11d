//! Plans for the writer's rows by chance: sound in any order of offsets, and then spoiled.

use super::rng::Rng;
use super::rowset;
use super::{PlannedSet, RowSet};
use crate::rows::split;
use crate::writer::END_LIMIT;

pub fn planned(rng: &mut Rng) -> PlannedSet {
    let set = rowset::rows(rng);
    let lengths = lengths(&set);
    let mut plan = sound(rng, &lengths);
    let end = greatest_end(&plan, &lengths);
    for _ in 0..*rng.pick(&[0, 0, 1, 1, 2]) {
        spoil(rng, &mut plan, &lengths);
    }
    let ceiling = ceiling(rng, end);
    PlannedSet { set, plan, ceiling }
}

/// The lengths of the blobs, if there are as many rows as the counts say.
fn lengths(set: &RowSet) -> Vec<u64> {
    split(&set.rows, set.objects, set.components)
        .map(|(_, components)| components.iter().map(|row| row.blob.length).collect())
        .unwrap_or_default()
}

/// An offset for each row: blobs in row order, backwards or in any order, with or without gaps; empty ones anywhere.
fn sound(rng: &mut Rng, lengths: &[u64]) -> Vec<u64> {
    let mut order: Vec<usize> = (0..lengths.len()).collect();
    match rng.index(4) {
        0 => {}
        1 => order.reverse(),
        2 => rng.shuffle(&mut order),
        _ => {
            let by = rng.index(order.len() + 1);
            order.rotate_left(by);
        }
    }
    let gaps = *rng.pick(&[1, 1, 3]);
    let mut reached: u64 = 8;
    let mut plan = vec![0; lengths.len()];
    for row in order {
        plan[row] = reached.next_multiple_of(64) + 64 * rng.below(gaps);
        reached = plan[row].saturating_add(lengths[row]).min(END_LIMIT as u64);
    }
    if rng.one_in(3) {
        let most = reached / 64;
        for (offset, _) in plan
            .iter_mut()
            .zip(lengths)
            .filter(|(_, &length)| length == 0)
        {
            *offset = 64 * (1 + rng.below(most.max(1)));
        }
    }
    plan
}

fn greatest_end(plan: &[u64], lengths: &[u64]) -> u64 {
    let ends = plan.iter().zip(lengths);
    ends.map(|(&offset, &length)| offset.saturating_add(length))
        .max()
        .unwrap_or(8)
}

/// Spoils one offset, or the count of offsets; a few of the ways leave the plan sound.
fn spoil(rng: &mut Rng, plan: &mut Vec<u64>, lengths: &[u64]) {
    let other = plan
        .get(rng.index(plan.len().max(1)))
        .copied()
        .unwrap_or(64);
    let row = rng.index(plan.len().max(1));
    let length = lengths.get(row).copied().unwrap_or(0);
    let end_at_limit = (END_LIMIT as u64).saturating_sub(length);
    let way = rng.index(10);
    let Some(offset) = plan.get_mut(row) else {
        return plan.push(64);
    };
    match way {
        0 => *offset += 1,
        1 => *offset -= 1,
        2 => *offset = offset.saturating_sub(64),
        3 => *offset = *rng.pick(&[0, 8, 63, 65]),
        4 => *offset = other,
        5 => *offset = other + 64 * rng.below(3),
        6 => *offset = end_at_limit / 64 * 64 + 64 * rng.below(2),
        7 => *offset = *rng.pick(&[u64::MAX, u64::MAX - 63, 1 << 63, 1 << 41]),
        8 => plan.truncate(rng.index(plan.len())),
        _ => plan.push(*rng.pick(&[0, 64, other])),
    }
}

/// At the greatest end, one byte short of it, somewhere above it, or at 2^40 and one past.
fn ceiling(rng: &mut Rng, end: u64) -> u64 {
    let limit = END_LIMIT as u64;
    match rng.index(10) {
        0 => end,
        1 => end.saturating_sub(1),
        2 => end.saturating_add(rng.below(200)),
        3 => limit + 1,
        4 => *rng.pick(&[0, 63, 64, u64::MAX, limit - 1, limit + 64]),
        _ => limit,
    }
}
