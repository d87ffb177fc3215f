// SPDX-License-Identifier: LicenseRef-Wengeludo
//! The search by distances: a distance per place, each labelled place looks at its own streams alone, potentials fall once.

use super::incidence::Incidence;
use super::state::{State, SHUT};
use super::watch::Watch;
use crate::plants::{Stream, PLACES};

const FAR: i64 = i64::MAX;

struct Reach {
    /// The places labelled, a bit for each, and those with a distance that are not.
    labelled: u64,
    fringe: u64,
    distance: [i64; PLACES],
    via: [u8; PLACES],
    /// The step of the improvement that is sought.
    delta: i64,
}

/// The bits of a mask, lowest first.
fn bits(mut mask: u64) -> impl Iterator<Item = usize> {
    std::iter::from_fn(move || {
        if mask == 0 {
            return None;
        }
        let u = mask.trailing_zeros() as usize;
        mask &= mask - 1;
        Some(u)
    })
}

impl Reach {
    fn from(start: usize, delta: i64) -> Reach {
        let mut distance = [FAR; PLACES];
        distance[start] = 0;
        Reach { labelled: 0, fringe: 1 << start, distance, via: [0; PLACES], delta }
    }

    /// The place of the fringe at least distance.
    fn nearest(&self) -> Option<usize> {
        bits(self.fringe).min_by_key(|&u| self.distance[u])
    }

    /// The streams of a newly labelled place.
    fn relax<W: Watch>(&mut self, streams: &[Stream], incidence: &Incidence, state: &State, u: usize, watch: &mut W) {
        for step in incidence.of(u) {
            watch.visits(1);
            let v = usize::from(step.to);
            if self.labelled >> v & 1 == 1 {
                continue;
            }
            let i = usize::from(step.stream);
            let cost = state.reduced_cost(&streams[i], state.flows[i], step.forwards, self.delta);
            if cost == SHUT {
                continue;
            }
            let distance = self.distance[u] + cost;
            if distance < self.distance[v] {
                self.distance[v] = distance;
                self.via[v] = step.stream;
                self.fringe |= 1 << v;
            }
        }
    }

    /// Places are labelled by distance until one with a negative net is.
    fn search<W: Watch>(&mut self, streams: &[Stream], incidence: &Incidence, state: &State, watch: &mut W) -> Option<usize> {
        loop {
            let u = self.nearest()?;
            watch.round();
            self.fringe &= !(1 << u);
            self.labelled |= 1 << u;
            if state.nets[u] < 0 {
                return Some(u);
            }
            self.relax(streams, incidence, state, u, watch);
        }
    }
}

/// One improvement at step delta from a place with so much net; where no way leads to a negative net, the places reached.
pub fn improve_from<W: Watch>(
    streams: &[Stream],
    incidence: &Incidence,
    state: &mut State,
    start: usize,
    delta: i64,
    watch: &mut W,
) -> Result<(), u64> {
    let mut reach = Reach::from(start, delta);
    let Some(target) = reach.search(streams, incidence, state, watch) else {
        watch.stuck();
        return Err(reach.labelled);
    };
    for u in bits(reach.labelled) {
        state.potentials[u] -= reach.distance[target] - reach.distance[u];
    }
    state.push_back(streams, &reach.via, start, target, delta, watch);
    state.nets[start] -= delta;
    state.nets[target] += delta;
    watch.improvement();
    Ok(())
}
