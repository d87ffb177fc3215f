// SPDX-License-Identifier: LicenseRef-Wengeludo
//! Amounts, potentials and nets; amounts settled at potentials and moved along a way; the reduced cost of a stream.

use super::watch::Watch;
use crate::plants::{Stream, MAX_STREAMS, PLACES};

/// The reduced cost of a stream that has no room.
pub const SHUT: i64 = i64::MAX;

/// The amount of each stream, and the potential and the net of each place.
pub struct State {
    pub flows: [i64; MAX_STREAMS],
    pub potentials: [i64; PLACES],
    pub nets: [i64; PLACES],
}

impl State {
    /// Amounts and potentials 0, nets not yet booked.
    pub fn zero() -> State {
        State { flows: [0; MAX_STREAMS], potentials: [0; PLACES], nets: [0; PLACES] }
    }

    /// Each metered stream's amount in range at the potentials of its ends, the others as they are; and the nets.
    pub fn settle(&mut self, streams: &[Stream]) {
        self.nets = [0; PLACES];
        for (s, x) in streams.iter().zip(&mut self.flows) {
            let (u, v) = (usize::from(s.from), usize::from(s.to));
            if s.metered {
                let wanted = s.reading + (self.potentials[v] - self.potentials[u] + s.weight).div_euclid(2 * s.weight);
                *x = wanted.clamp(s.low, s.high);
            }
            self.nets[u] -= *x;
            self.nets[v] += *x;
        }
    }

    /// The summed positive net.
    pub fn over(&self) -> i64 {
        self.nets.iter().map(|&z| z.max(0)).sum()
    }

    /// Delta is moved from one place to another, back along the streams by which each place was labelled.
    pub fn push_back<W: Watch>(
        &mut self,
        streams: &[Stream],
        via: &[u8; PLACES],
        from: usize,
        to: usize,
        delta: i64,
        watch: &mut W,
    ) {
        let mut at = to;
        while at != from {
            let i = usize::from(via[at]);
            let s = &streams[i];
            let forwards = usize::from(s.to) == at;
            self.flows[i] += if forwards { delta } else { -delta };
            at = if forwards { s.from } else { s.to }.into();
            watch.push();
        }
    }

    /// What is missing before delta can be moved along a stream with amount x; SHUT where it would leave the range.
    pub fn reduced_cost(&self, s: &Stream, x: i64, forwards: bool, delta: i64) -> i64 {
        if if forwards { x + delta > s.high } else { x - delta < s.low } {
            return SHUT;
        }
        let marginal = 2 * s.weight * (x - s.reading) + self.potentials[usize::from(s.from)] - self.potentials[usize::from(s.to)];
        let signed = if forwards { marginal } else { -marginal };
        (signed + s.weight * delta).max(0)
    }
}
