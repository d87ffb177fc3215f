// SPDX-License-Identifier: LicenseRef-Wengeludo
//! Ranges for the meters of a plant: round a balanced flow, round the readings, anywhere, at the edges.

use super::Draw;
use crate::reference::{Listed, Stream};

const MOST: i64 = 2_000_000_000;

/// Low and high at the edge of what is taken, or past it.
pub fn at_an_edge(draw: &mut Draw) -> (i32, i32) {
    const ENDS: [i32; 8] = [i32::MIN, -2_000_000_001, -2_000_000_000, -1, 0, 2_000_000_000, 2_000_000_001, i32::MAX];
    let low = ENDS[draw.below(8)];
    (low, if draw.below(2) == 0 { ENDS[draw.below(8)] } else { low.wrapping_add(draw.below(3) as i32 - 1) })
}

/// The manners in which a plant's ranges are drawn.
#[derive(Clone, Copy)]
enum Manner {
    /// Anywhere.
    Any,
    /// Within 3 of a balanced flow.
    Tight,
    /// Round a balanced flow, wide.
    Wide,
    /// Round the reading.
    Near,
    /// The flow itself, low = high.
    Point,
    /// At the edges of what is taken.
    Edge,
    /// Any of these, stream by stream.
    Mixed,
}

const MANNERS: [Manner; 7] = [Manner::Any, Manner::Tight, Manner::Wide, Manner::Near, Manner::Point, Manner::Edge, Manner::Mixed];

/// Gives some of the metered streams ranges.
pub fn put(draw: &mut Draw, plant: &mut Listed) {
    let size = [3, 20, 1000, 4_000_000, MOST][draw.below(5)];
    let manner = MANNERS[draw.below(7)];
    let share = [15, 50, 85, 100][draw.below(4)];
    let flow = balanced(draw, plant, size);
    // Often one stream's range misses the flow, mostly by one.
    let missed = if draw.below(3) == 0 { draw.below(plant.streams.len().max(1)) } else { usize::MAX };
    for (k, s) in plant.streams.iter_mut().enumerate() {
        if draw.below(100) < share {
            let (low, high) = range(draw, manner, size, flow[k], s);
            let by = if k == missed { [-1, 1, 1, -7, size / 2][draw.below(5)] } else { 0 };
            let end = |x: i64| (x + by).clamp(-MOST, MOST) as i32;
            s.range = s.meter.map(|_| (end(low), end(high)));
        }
    }
}

fn range(draw: &mut Draw, manner: Manner, size: i64, flow: i64, s: &Stream) -> (i64, i64) {
    let reading = s.meter.map_or(0, |m| i64::from(m.1));
    let (a, b) = match manner {
        Manner::Any => (draw.between(-size, size), draw.between(-size, size)),
        Manner::Tight => (flow - draw.between(0, 3), flow + draw.between(0, 3)),
        Manner::Wide => (flow - draw.between(0, size / 2), flow + draw.between(0, size / 2)),
        Manner::Near => (reading - draw.between(-1, size / 4 + 1), reading + draw.between(-1, size / 4 + 1)),
        Manner::Point => (flow, flow),
        Manner::Edge => ([-size, 0, size][draw.below(3)], [-size, size][draw.below(2)]),
        Manner::Mixed => {
            let manner = MANNERS[draw.below(6)];
            range(draw, manner, size, flow, s)
        }
    };
    (a.min(b), a.max(b))
}

/// A balanced flow: amounts sent round the cycles that streams close over a forest.
fn balanced(draw: &mut Draw, plant: &Listed, size: i64) -> Vec<i64> {
    let mut flow = vec![0; plant.streams.len()];
    let (mut above, mut depth): (Vec<Option<usize>>, Vec<Option<usize>>) = (vec![None; 33], vec![None; 33]);
    for root in 0..=usize::from(plant.units) {
        if depth[root].is_some() {
            continue;
        }
        depth[root] = Some(0);
        let mut order = vec![root];
        let mut next = 0;
        while next < order.len() {
            let at = order[next];
            next += 1;
            for (k, s) in plant.streams.iter().enumerate() {
                for (near, far) in [(s.from, s.to), (s.to, s.from)] {
                    if near == at && depth[far].is_none() {
                        depth[far] = depth[near].map(|d| d + 1);
                        above[far] = Some(k);
                        order.push(far);
                    }
                }
            }
        }
    }
    for (k, s) in plant.streams.iter().enumerate() {
        if above[s.from] == Some(k) || above[s.to] == Some(k) {
            continue;
        }
        let amount = draw.between(-size / 8 - 1, size / 8 + 1);
        flow[k] += amount;
        // What arrives at `to` goes back to `from`: up from the one end and down to the other.
        let (mut to, mut from) = (s.to, s.from);
        while to != from {
            let rises = depth[to] >= depth[from];
            let lower = if rises { &mut to } else { &mut from };
            let stream = above[*lower].expect("a place below its root");
            let way = &plant.streams[stream];
            let upwards = way.from == *lower;
            flow[stream] += if upwards == rises { amount } else { -amount };
            *lower = if upwards { way.to } else { way.from };
        }
    }
    flow
}
