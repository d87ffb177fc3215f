// SPDX-License-Identifier: LicenseRef-Wengeludo
//! The floor: the real-number optimum of a plant by Cholesky factorisation of its weighted Laplacian; where it has ranges,
//! by Newton's method, which factors such a Laplacian several times.
//!
//! Its flows are fractions, so they do not balance in whole numbers; unmetered streams get none. Places that unmetered
//! streams join are one row; the outside's row is left out, its potential is 0.

use crate::engine::groups::group;
use crate::engine::newton::real_potentials;
use crate::plants::{Stream, MAX_STREAMS, MAX_UNITS, PLACES};

/// A pivot below this belongs to a piece without the outside, and its potential is 0.
const LEAST_PIVOT: f64 = 1e-7;

/// The upper triangle, then its factor with the diagonal inverted; and the right side, then the potentials.
struct System {
    size: usize,
    rows: [[f64; MAX_UNITS]; MAX_UNITS],
    potentials: [f64; MAX_UNITS],
}

/// The row of each place, counted from 1; 0 for the outside's group. And how many rows there are.
fn rows_of(streams: &[Stream], units: usize) -> ([usize; PLACES], usize) {
    let labels = group(streams, |s| !s.metered);
    let mut row = [0; PLACES];
    let mut size = 0;
    for u in 1..=units {
        let label = usize::from(labels[u]);
        size += usize::from(label == u);
        row[u] = if label == u { size } else { row[label] };
    }
    (row, size)
}

/// The Laplacian with 1 / 2w per metered stream, and the readings' nets with their sign turned.
fn assemble(streams: &[Stream], row: &[usize; PLACES], size: usize) -> System {
    let mut system = System { size, rows: [[0.0; MAX_UNITS]; MAX_UNITS], potentials: [0.0; MAX_UNITS] };
    for s in streams.iter().filter(|s| s.metered) {
        let (from, to) = (row[usize::from(s.from)], row[usize::from(s.to)]);
        let softness = 0.5 / s.weight as f64;
        if from > 0 {
            system.rows[from - 1][from - 1] += softness;
            system.potentials[from - 1] += s.reading as f64;
        }
        if to > 0 {
            system.rows[to - 1][to - 1] += softness;
            system.potentials[to - 1] -= s.reading as f64;
        }
        let (low, high) = (from.min(to), from.max(to));
        if low > 0 {
            system.rows[low - 1][high - 1] -= if low == high { 2.0 * softness } else { softness };
        }
    }
    system
}

impl System {
    fn factor(&mut self) {
        let n = self.size;
        for k in 0..n {
            let (done, rest) = self.rows[..n].split_at_mut(k + 1);
            let row = &mut done[k];
            let scale = if row[k] < LEAST_PIVOT { 0.0 } else { 1.0 / row[k].sqrt() };
            row[k] = scale;
            row[k + 1..n].iter_mut().for_each(|x| *x *= scale);
            for i in k + 1..n {
                let f = row[i];
                if f != 0.0 {
                    rest[i - k - 1][i..n].iter_mut().zip(&row[i..n]).for_each(|(x, y)| *x -= f * y);
                }
            }
        }
    }

    fn substitute(&mut self) {
        let n = self.size;
        let x = &mut self.potentials[..n];
        for k in 0..n {
            x[k] *= self.rows[k][k];
            let xk = x[k];
            x[k + 1..].iter_mut().zip(&self.rows[k][k + 1..n]).for_each(|(y, r)| *y -= r * xk);
        }
        for k in (0..n).rev() {
            let sum: f64 = x[k + 1..].iter().zip(&self.rows[k][k + 1..n]).map(|(y, r)| y * r).sum();
            x[k] = (x[k] - sum) * self.rows[k][k];
        }
    }
}

/// The potentials of the places at which the flows of a plant without ranges balance.
fn potentials_of(streams: &[Stream], units: usize) -> [f64; PLACES] {
    let (row, size) = rows_of(streams, units);
    let mut system = assemble(streams, &row, size);
    system.factor();
    system.substitute();
    row.map(|r| if r == 0 { 0.0 } else { system.potentials[r - 1] })
}

/// The flows of the metered streams, of least cost, that balance in real numbers and keep in range, where some do.
pub fn solve(streams: &[Stream], units: usize, flows: &mut [f64; MAX_STREAMS]) {
    let ranges = streams.iter().any(|s| s.ranged);
    let potentials = if ranges { real_potentials(streams, units) } else { potentials_of(streams, units) };
    for (flow, s) in flows.iter_mut().zip(streams).filter(|(_, s)| s.metered) {
        let climb = potentials[usize::from(s.to)] - potentials[usize::from(s.from)];
        *flow = (s.reading as f64 + climb * (0.5 / s.weight as f64)).clamp(s.low as f64, s.high as f64);
    }
}
