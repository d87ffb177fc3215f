// SPDX-License-Identifier: LicenseRef-Wengeludo
//! The cheapest balanced flow in range, by cancelling cycles; or places that must take in more than they can let out.

use super::Listed;

/// A stream between two groups: its number among all streams, ends, weight, reading, range, and 2 to the power of the
/// metered streams after it.
struct Arc {
    stream: usize,
    from: usize,
    to: usize,
    weight: i64,
    reading: i64,
    range: Option<(i64, i64)>,
    rank: i128,
}

impl Arc {
    /// How far an amount lies outside the range.
    fn outside(&self, x: i64) -> i64 {
        self.range.map_or(0, |(low, high)| (low - x).max(x - high).max(0))
    }
}

/// A change: of what lies outside the ranges, then of the cost, then of the flows weighed by rank.
type Change = (i64, i128, i128);

fn sum(a: Change, b: Change) -> Change {
    (a.0 + b.0, a.1 + b.1, a.2 + b.2)
}

/// The most times that a cycle is gone round at once.
const MOST_TIMES: i64 = 1 << 20;

/// Each metered stream's flow, 0 for the others. Where no balanced flow is in range, a set of places instead, by groups.
pub fn metered_flows(plant: &Listed, group: &[usize]) -> Result<Vec<i64>, Vec<bool>> {
    let mut flow = vec![0; plant.streams.len()];
    let mut arcs = Vec::new();
    let mut after = plant.streams.iter().filter(|s| s.meter.is_some()).count();
    for (k, s) in plant.streams.iter().enumerate() {
        if let Some((weight, reading)) = s.meter {
            after -= 1;
            let (from, to, reading, range) = (group[s.from], group[s.to], i64::from(reading), s.limits());
            if from == to {
                flow[k] = range.map_or(reading, |(low, high)| reading.clamp(low, high));
            } else {
                arcs.push(Arc { stream: k, from, to, weight: weight.into(), reading, range, rank: 1 << after });
            }
        }
    }
    let x = least(&arcs, group.len());
    if arcs.iter().zip(&x).any(|(arc, x)| arc.outside(*x) > 0) {
        let set = overfull(&arcs, &x, group.len());
        return Err(group.iter().map(|g| set[*g]).collect());
    }
    for (arc, x) in arcs.iter().zip(x) {
        flow[arc.stream] = x;
    }
    Ok(flow)
}

/// The balanced flow least outside the ranges, of these the cheapest, by the tie rule the first. Cycles are gone round in
/// steps that halve down to 1; that no cycle of ones is left is what counts, the greater steps spare time.
fn least(arcs: &[Arc], places: usize) -> Vec<i64> {
    let mut x = first_flow(arcs, places);
    let farthest = arcs.iter().zip(&x).map(|(arc, x)| arc.outside(*x)).max().unwrap_or(0);
    let mut size = 1 << (64 - farthest.leading_zeros());
    while size > 0 {
        while let Some(cycle) = improving_cycle(arcs, &x, places, size) {
            let times = good_times(arcs, &x, &cycle, size);
            for (a, sign) in cycle {
                x[a] += sign * times * size;
            }
        }
        size /= 2;
    }
    x
}

/// What a move on an arc changes; flows are ranked in steps of 1 alone.
fn change(arc: &Arc, x: i64, sign: i64, size: i64) -> Change {
    let by = sign * size;
    let cost = i128::from(arc.weight) * i128::from(by) * i128::from(2 * (x - arc.reading) + by);
    (arc.outside(x + by) - arc.outside(x), cost, if size == 1 { i128::from(sign) * arc.rank } else { 0 })
}

/// A cycle of arcs with their directions whose steps together lower the objective.
fn improving_cycle(arcs: &[Arc], x: &[i64], places: usize, size: i64) -> Option<Vec<(usize, i64)>> {
    let mut steps = Vec::with_capacity(2 * arcs.len());
    for (a, arc) in arcs.iter().enumerate() {
        steps.push((arc.from, arc.to, change(arc, x[a], 1, size), (a, 1)));
        steps.push((arc.to, arc.from, change(arc, x[a], -1, size), (a, -1)));
    }
    let mut length: Vec<Change> = vec![(0, 0, 0); places];
    let mut came: Vec<Option<(usize, (usize, i64))>> = vec![None; places];
    loop {
        let mut changed = false;
        for &(from, to, change, by) in &steps {
            let through = sum(length[from], change);
            if through < length[to] {
                length[to] = through;
                came[to] = Some((from, by));
                changed = true;
            }
        }
        if !changed {
            return None;
        }
        // A cycle among the last steps to each place is one that improves, and there is one if the lengths never settle.
        if let Some(cycle) = cycle_of(&came) {
            return Some(cycle);
        }
    }
}

fn cycle_of(came: &[Option<(usize, (usize, i64))>]) -> Option<Vec<(usize, i64)>> {
    let mut seen = vec![0; came.len()];
    for start in 0..came.len() {
        let mut at = start;
        while seen[at] == 0 {
            seen[at] = start + 1;
            match came[at] {
                Some((from, _)) => at = from,
                None => break,
            }
        }
        if seen[at] == start + 1 && came[at].is_some() {
            let mut cycle = Vec::new();
            let mut place = at;
            loop {
                let (from, by) = came[place].unwrap();
                cycle.push(by);
                place = from;
                if place == at {
                    return Some(cycle);
                }
            }
        }
    }
    None
}

/// How often to go round the cycle: twice as often as long as that is better.
fn good_times(arcs: &[Arc], x: &[i64], cycle: &[(usize, i64)], size: i64) -> i64 {
    let rank = if size == 1 { cycle.iter().map(|(a, sign)| i128::from(*sign) * arcs[*a].rank).sum() } else { 0 };
    let after = |times: i64| {
        let moved = cycle.iter().map(|(a, sign)| change(&arcs[*a], x[*a], *sign, times * size));
        let (outside, cost) = moved.fold((0, 0), |all, one| (all.0 + one.0, all.1 + one.1));
        (outside, cost, rank * i128::from(times))
    };
    assert!(after(1) < (0, 0, 0), "a cycle that does not improve");
    let mut times = 1;
    while times < MOST_TIMES && after(2 * times) < after(times) {
        times *= 2;
    }
    times
}

/// The places nearer than the farther end of a stream outside its range, by what steps of 1 change outside the ranges.
/// Each step out of them, along a stream or against it, adds at least 1: so a stream into them is at its low or below, one
/// out of them at its high or above, and that one stream beyond. The set must take in more than it can let out.
fn overfull(arcs: &[Arc], x: &[i64], places: usize) -> Vec<bool> {
    let mut length = vec![0; places];
    let mut changed = true;
    while changed {
        changed = false;
        for (arc, x) in arcs.iter().zip(x) {
            for (from, to, sign) in [(arc.from, arc.to, 1), (arc.to, arc.from, -1)] {
                let through = length[from] + change(arc, *x, sign, 1).0;
                if through < length[to] {
                    length[to] = through;
                    changed = true;
                }
            }
        }
    }
    let beyond = arcs.iter().zip(x).find(|(arc, x)| arc.outside(**x) > 0).expect("a stream outside its range").0;
    let limit = length[beyond.from].max(length[beyond.to]);
    length.iter().map(|l| *l < limit).collect()
}

/// A balanced flow near the cheapest: the real-number optimum, rounded, with the balance kept by a forest of arcs.
fn first_flow(arcs: &[Arc], places: usize) -> Vec<i64> {
    let potential = real_potentials(arcs, places);
    let mut x: Vec<i64> = arcs
        .iter()
        .map(|a| (a.reading as f64 + (potential[a.to] - potential[a.from]) / a.weight as f64).round() as i64)
        .collect();
    let mut net = vec![0i64; places];
    for (a, x) in arcs.iter().zip(&x) {
        net[a.from] -= x;
        net[a.to] += x;
    }
    // A forest from each piece's least place on; what a place has too much goes back to the place before it.
    let mut before: Vec<Option<(usize, usize)>> = vec![None; places];
    let mut reached = vec![false; places];
    for root in 0..places {
        if reached[root] {
            continue;
        }
        reached[root] = true;
        let mut order = vec![root];
        let mut next = 0;
        while next < order.len() {
            let at = order[next];
            next += 1;
            for (k, a) in arcs.iter().enumerate() {
                for (near, far) in [(a.from, a.to), (a.to, a.from)] {
                    if near == at && !reached[far] {
                        reached[far] = true;
                        before[far] = Some((near, k));
                        order.push(far);
                    }
                }
            }
        }
        for &at in order.iter().rev() {
            if let Some((near, k)) = before[at] {
                let excess = net[at];
                x[k] += if arcs[k].from == at { excess } else { -excess };
                net[near] += excess;
                net[at] = 0;
            }
        }
        assert_eq!(net[root], 0);
    }
    x
}

/// Potentials that balance the real-number flow reading + (potential to - potential from) / weight, by elimination.
fn real_potentials(arcs: &[Arc], places: usize) -> Vec<f64> {
    let mut m = vec![vec![0.0; places + 1]; places];
    for a in arcs {
        let g = 1.0 / a.weight as f64;
        m[a.from][a.from] += g;
        m[a.to][a.to] += g;
        m[a.from][a.to] -= g;
        m[a.to][a.from] -= g;
        m[a.to][places] -= a.reading as f64;
        m[a.from][places] += a.reading as f64;
    }
    let mut potential = vec![0.0; places];
    let mut fixed = vec![false; places];
    for i in 0..places {
        // A place whose row is spent is a piece's last: its potential is 0.
        if m[i][i] < 1e-9 {
            fixed[i] = true;
            continue;
        }
        let row = m[i].clone();
        for (j, other) in m.iter_mut().enumerate() {
            if j != i && other[i] != 0.0 {
                let by = other[i] / row[i];
                for (cell, pivot) in other.iter_mut().zip(&row).skip(i) {
                    *cell -= by * pivot;
                }
            }
        }
    }
    for i in 0..places {
        if !fixed[i] {
            potential[i] = m[i][places] / m[i][i];
        }
    }
    potential
}
