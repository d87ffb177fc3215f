// SPDX-License-Identifier: LicenseRef-Wengeludo
//! Ties: among equally cheap flows, the first metered stream least, then the second, and so on.

use super::incidence::Incidence;
use super::state::State;
use super::watch::Watch;
use crate::plants::{Stream, PLACES};

/// Whether a stream's amount can fall by one at no cost.
fn can_fall(state: &State, s: &Stream, i: usize) -> bool {
    s.metered && state.reduced_cost(s, state.flows[i], false, 1) == 0
}

/// The stream by which each place was labelled, if the target was; each labelled place looks at its own streams alone.
fn way_round<W: Watch>(
    streams: &[Stream],
    incidence: &Incidence,
    state: &State,
    i: usize,
    watch: &mut W,
) -> Option<[u8; PLACES]> {
    let (start, target) = (usize::from(streams[i].from), usize::from(streams[i].to));
    let mut via = [0; PLACES];
    let mut queue = [0u8; PLACES];
    let (mut labelled, mut done, mut len) = (1u64 << start, 0, 1);
    queue[0] = start as u8;
    while done < len {
        let u = usize::from(queue[done]);
        done += 1;
        watch.round();
        for step in incidence.of(u) {
            watch.visits(1);
            let (v, j) = (usize::from(step.to), usize::from(step.stream));
            let s = &streams[j];
            if labelled >> v & 1 == 1 || (s.metered && j <= i) || state.reduced_cost(s, state.flows[j], step.forwards, 1) > 0 {
                continue;
            }
            via[v] = step.stream;
            if v == target {
                return Some(via);
            }
            labelled |= 1 << v;
            queue[len] = v as u8;
            len += 1;
        }
    }
    None
}

/// The streams one after the other: less by one where a way of no reduced cost leads round it.
pub fn tie_all<W: Watch>(streams: &[Stream], incidence: &Incidence, state: &mut State, watch: &mut W) {
    for (i, s) in streams.iter().enumerate() {
        if !can_fall(state, s, i) {
            continue;
        }
        if let Some(via) = way_round(streams, incidence, state, i, watch) {
            state.push_back(streams, &via, s.from.into(), s.to.into(), 1, watch);
            state.flows[i] -= 1;
        }
    }
}
