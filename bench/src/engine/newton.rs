// SPDX-License-Identifier: LicenseRef-Wengeludo
//! The hint: potentials of the groups from the real-number optimum in range, by Newton's method, rounded; unmetered flows by a
//! forest.
//!
//! The first round leaves the ranges out, so a plant without ranges needs one. In each later one a stream at an end of its
//! range gives way hardly at all, and the step along the direction found ends where the slope does.

use super::forest::Forest;
use super::state::State;
use crate::plants::{Stream, PLACES};

/// A pivot below this belongs to a piece without the outside, and its potential is 0.
const LEAST_PIVOT: f64 = 1e-13;

/// Potentials farther from the highest are as far.
const SPREAD: f64 = (1u64 << 54) as f64;

/// Unmetered amounts beyond this are no hint.
const HINT_ROOM: i64 = 1 << 45;

/// The summed positive net up to which the hint is taken.
const TRIED: i64 = 512;

const ROUNDS: usize = 24;
const STEPS: usize = 12;

/// How much a stream at an end of its range gives way, beside one inside it.
const AT_AN_END: f64 = 1e-4;

/// A net of a group below this is near enough.
const NEAR_ENOUGH: f64 = 4.0;

/// A number for each group, that of the outside first.
type Row = [f64; PLACES];

/// A metered stream between two groups; `give` is what its amount gains by a difference of potentials, 1 / 2w.
struct Arc {
    from: usize,
    to: usize,
    give: f64,
    reading: f64,
    low: f64,
    high: f64,
}

impl Arc {
    fn wanted(&self, potentials: &Row) -> f64 {
        self.reading + (potentials[self.to] - potentials[self.from]) * self.give
    }

    fn amount(&self, potentials: &Row) -> f64 {
        self.wanted(potentials).clamp(self.low, self.high)
    }
}

/// The groups, their numbers and the streams between them.
struct Groups {
    size: usize,
    number: [usize; PLACES],
    arcs: Vec<Arc>,
}

impl Groups {
    fn new(streams: &[Stream], forest: &Forest, units: usize) -> Groups {
        let mut groups = Groups { size: 1, number: [0; PLACES], arcs: Vec::with_capacity(streams.len()) };
        for u in 1..=units {
            let label = usize::from(forest.labels[u]);
            groups.number[u] = if label == u { groups.size } else { groups.number[label] };
            groups.size += usize::from(label == u);
        }
        for s in streams.iter().filter(|s| s.metered) {
            let (from, to) = (groups.number[usize::from(s.from)], groups.number[usize::from(s.to)]);
            if from != to {
                let (give, reading) = (0.5 / s.weight as f64, s.reading as f64);
                groups.arcs.push(Arc { from, to, give, reading, low: s.low as f64, high: s.high as f64 });
            }
        }
        groups
    }

    /// The nets of the amounts in range at these potentials.
    fn nets(&self, potentials: &Row) -> Row {
        let mut nets = [0.0; PLACES];
        for arc in &self.arcs {
            let x = arc.amount(potentials);
            nets[arc.from] -= x;
            nets[arc.to] += x;
        }
        nets
    }

    /// Where the potentials should go: all the way without ranges in the first round.
    fn direction(&self, potentials: &Row, first: bool) -> Row {
        let mut system = System { size: self.size, rows: [[0.0; PLACES]; PLACES], right: [0.0; PLACES] };
        for arc in &self.arcs {
            let wanted = arc.wanted(potentials);
            let x = if first { wanted } else { wanted.clamp(arc.low, arc.high) };
            system.add(arc, x, if x == wanted { arc.give } else { arc.give * AT_AN_END });
        }
        system.eliminate();
        system.substitute();
        system.right
    }
}

/// The groups' Laplacian, its upper triangle; and the right side. The outside's group is left out: its potential is 0.
struct System {
    size: usize,
    rows: [Row; PLACES],
    right: Row,
}

impl System {
    fn add(&mut self, arc: &Arc, x: f64, give: f64) {
        let (u, v) = (arc.from, arc.to);
        self.rows[u][u] += give;
        self.rows[v][v] += give;
        self.rows[u.min(v)][u.max(v)] -= give;
        self.right[u] += x;
        self.right[v] -= x;
    }

    /// LDLᵀ and the forward substitution in one pass; a row k then holds its pivot's inverse and the factors above it.
    fn eliminate(&mut self) {
        let n = self.size;
        for k in 1..n {
            let pivot = self.rows[k][k];
            let inverse = if pivot < LEAST_PIVOT { 0.0 } else { 1.0 / pivot };
            let (done, rest) = self.rows[..n].split_at_mut(k + 1);
            let row = &mut done[k];
            let right = self.right[k] * inverse;
            for i in k + 1..n {
                let f = row[i] * inverse;
                if f != 0.0 {
                    rest[i - k - 1][i..n].iter_mut().zip(&row[i..n]).for_each(|(x, y)| *x -= f * y);
                    self.right[i] -= row[i] * right;
                }
            }
            row[k] = inverse;
        }
    }

    /// The backward substitution: the solution in the place of the right side.
    fn substitute(&mut self) {
        let n = self.size;
        for k in (1..n).rev() {
            let row = &self.rows[k];
            let sum: f64 = row[k + 1..n].iter().zip(&self.right[k + 1..n]).map(|(r, x)| r * x).sum();
            self.right[k] = (self.right[k] - sum) * row[k];
        }
        self.right[0] = 0.0;
    }
}

fn dot(a: &Row, b: &Row) -> f64 {
    a.iter().zip(b).map(|(x, y)| x * y).sum()
}

fn along(potentials: &Row, direction: &Row, length: f64) -> Row {
    std::array::from_fn(|u| potentials[u] + length * direction[u])
}

/// How far to go: all the way if the slope is not yet up there, else to where it is a tenth of the first or less.
fn step_length(groups: &Groups, potentials: &Row, direction: &Row, first_slope: f64) -> f64 {
    let slope = |length: f64| dot(&groups.nets(&along(potentials, direction, length)), direction);
    let (mut near, mut far) = ((0.0, first_slope), (1.0, slope(1.0)));
    if far.1 <= 0.0 {
        return 1.0;
    }
    for k in 0..STEPS {
        let length = if k % 3 == 2 { (near.0 + far.0) / 2.0 } else { near.0 + (far.0 - near.0) * (-near.1) / (far.1 - near.1) };
        let found = slope(length);
        if found > 0.0 {
            far = (length, found);
        } else {
            near = (length, found);
            if -found <= -0.1 * first_slope {
                break;
            }
        }
    }
    near.0
}

/// Potentials of the groups at which the nets are near enough to 0, or as near as they got in so many rounds.
fn potentials_of(groups: &Groups, rounds: usize) -> Row {
    let mut potentials = groups.direction(&[0.0; PLACES], true);
    for _ in 1..rounds {
        let nets = groups.nets(&potentials);
        if nets[..groups.size].iter().all(|net| net.abs() < NEAR_ENOUGH) {
            break;
        }
        let direction = groups.direction(&potentials, false);
        let slope = dot(&nets, &direction);
        if slope.partial_cmp(&0.0) != Some(std::cmp::Ordering::Less) {
            break;
        }
        potentials = along(&potentials, &direction, step_length(groups, &potentials, &direction, slope));
    }
    potentials
}

/// Whole potentials from the highest down, one per group.
fn whole_potentials(groups: &Groups, rounds: usize, units: usize) -> [i64; PLACES] {
    let potentials = potentials_of(groups, rounds);
    let highest = potentials[..groups.size].iter().fold(0.0, |a: f64, b| a.max(*b));
    let mut whole = [0; PLACES];
    for (potential, &group) in whole[..=units].iter_mut().zip(&groups.number) {
        *potential = -((highest - potentials[group] + 0.5).clamp(0.0, SPREAD) as i64);
    }
    whole
}

/// The potentials of the places as they are found, before they are rounded.
pub fn real_potentials(streams: &[Stream], units: usize) -> [f64; PLACES] {
    let groups = Groups::new(streams, &Forest::new(streams), units);
    let potentials = potentials_of(&groups, ROUNDS);
    groups.number.map(|group| potentials[group])
}

/// The state settled at the rounded potentials; false where they are of no use.
pub fn hint(streams: &[Stream], units: usize, state: &mut State) -> bool {
    let forest = Forest::new(streams);
    let groups = Groups::new(streams, &forest, units);
    let rounds = if streams.iter().any(|s| s.ranged) { ROUNDS } else { 1 };
    state.potentials = whole_potentials(&groups, rounds, units);
    state.settle(streams);
    forest.hand_on(streams, state);
    let fits = streams.iter().zip(&state.flows).all(|(s, x)| s.metered || x.abs() <= HINT_ROOM);
    fits && state.over() <= TRIED
}
