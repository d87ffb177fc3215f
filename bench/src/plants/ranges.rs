// SPDX-License-Identifier: LicenseRef-Wengeludo
//! Plants with ranges.

use super::{extremes, site_and_flow, Plant, Stream, MAX_RANGE, MAX_UNITS};
use crate::draws::Draws;

/// A balanced flow of a plant: amounts sent round the cycles that its streams close over a forest.
fn circulation(draws: &mut Draws, plant: &Plant, most: i64) -> Vec<i64> {
    let ends = |k: usize| (usize::from(plant.streams[k].from), usize::from(plant.streams[k].to));
    let (mut above, mut depth) = ([usize::MAX; MAX_UNITS + 1], [usize::MAX; MAX_UNITS + 1]);
    for root in 0..=plant.units {
        if depth[root] != usize::MAX {
            continue;
        }
        depth[root] = 0;
        let (mut order, mut next) = (vec![root], 0);
        while next < order.len() {
            let near = order[next];
            next += 1;
            for k in 0..plant.streams.len() {
                let (from, to) = ends(k);
                let far = if from == near { to } else { from };
                if (from == near || to == near) && depth[far] == usize::MAX {
                    (depth[far], above[far]) = (depth[near] + 1, k);
                    order.push(far);
                }
            }
        }
    }
    let mut flow = vec![0; plant.streams.len()];
    for k in 0..plant.streams.len() {
        let (mut from, mut to) = ends(k);
        if above[from] == k || above[to] == k {
            continue;
        }
        let amount = draws.between(-most, most);
        flow[k] += amount;
        while from != to {
            let rises = depth[to] >= depth[from];
            let lower = if rises { &mut to } else { &mut from };
            let i = above[*lower];
            let (start, end) = ends(i);
            flow[i] += if (start == *lower) == rises { amount } else { -amount };
            *lower = if start == *lower { end } else { start };
        }
    }
    flow
}

/// Random extremes; so many of a hundred metered streams get a range that holds a balanced flow about as great as the
/// readings, its ends some way off.
fn round_a_flow(draws: &mut Draws, units: usize, count: usize, share: usize) -> Plant {
    let mut plant = extremes(draws, units, count);
    let most = draws.pick(&[300_000, 1_000_000, MAX_RANGE / 100]);
    let flow = circulation(draws, &plant, most);
    let room = draws.pick(&[0, 3, most / 4, most]);
    for (s, x) in plant.streams.iter_mut().zip(flow) {
        if s.metered && draws.chance(share) {
            let (low, high) = (x - draws.between(0, room), x + draws.between(0, room));
            *s = s.within(low.clamp(-MAX_RANGE, MAX_RANGE), high.clamp(-MAX_RANGE, MAX_RANGE));
        }
    }
    plant
}

pub fn ranges(draws: &mut Draws, units: usize, count: usize) -> Plant {
    let share = draws.pick(&[20, 60, 100]);
    round_a_flow(draws, units, count, share)
}

/// A site whose meters have the range of their pipes: from 0, or from as much backwards, to somewhat above the usual flow.
pub fn pipes(draws: &mut Draws, units: usize, count: usize) -> Plant {
    let (mut plant, flow) = site_and_flow(draws, units, count);
    let share = draws.pick(&[30, 70, 100]);
    for (s, x) in plant.streams.iter_mut().zip(flow) {
        if s.metered && draws.chance(share) {
            let high = (x + x * draws.between(0, 60) / 100 + draws.between(0, 20)).min(MAX_RANGE);
            let low = if draws.chance(20) { -high } else { draws.between(0, x) };
            *s = s.within(low, high);
        }
    }
    plant
}

/// Ranges round a balanced flow, but for some places: every stream across their edge has a range, and one of those into
/// them at least so much that the lows in are more than the highs out.
pub fn overfull(draws: &mut Draws, units: usize, count: usize) -> Plant {
    let share = draws.pick(&[20, 60, 100]);
    let mut plant = round_a_flow(draws, units, count, share);
    let into = draws.below(count);
    let (from, to) = (plant.streams[into].from, plant.streams[into].to);
    let others = draws.pick(&[0, 10, 50]);
    let inside: Vec<bool> =
        (0..=units).map(|u| u == usize::from(to) || (u != usize::from(from) && draws.chance(others))).collect();
    let across = |s: &Stream| inside[usize::from(s.to)] != inside[usize::from(s.from)];
    for s in plant.streams.iter_mut().filter(|s| across(s)) {
        if !s.metered {
            *s = Stream::metered(s.from, s.to, draws.between(1, 1_000), draws.between(-9, 9));
        }
        if !s.ranged {
            *s = s.within(s.reading - draws.between(0, 9), s.reading + draws.between(0, 9));
        }
    }
    let spare: i64 =
        plant.streams.iter().filter(|s| across(s)).map(|s| if inside[usize::from(s.to)] { -s.low } else { s.high }).sum();
    let s = &mut plant.streams[into];
    let low = s.low + (spare + draws.pick(&[1, 1, 1_000])).max(0);
    *s = s.within(low.min(MAX_RANGE), s.high.max(low).min(MAX_RANGE));
    plant
}
