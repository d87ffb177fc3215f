// SPDX-License-Identifier: LicenseRef-Wengeludo
//! A spanning forest of the unmetered streams, taken apart from its leaves.

use super::groups::{self, Labels};
use super::state::State;
use crate::plants::{Stream, PLACES};

/// The labels of the groups; for each place how many of the forest's streams it has, and their numbers combined by
/// exclusive or: the number itself where there is one.
pub struct Forest {
    pub labels: Labels,
    degree: [u8; PLACES],
    number: [u8; PLACES],
}

impl Forest {
    pub fn new(streams: &[Stream]) -> Forest {
        let mut forest = Forest { labels: groups::own_numbers(), degree: [0; PLACES], number: [0; PLACES] };
        for (i, s) in streams.iter().enumerate() {
            if !s.metered && groups::join(&mut forest.labels, s) {
                for end in [usize::from(s.from), usize::from(s.to)] {
                    forest.degree[end] += 1;
                    forest.number[end] ^= i as u8;
                }
            }
        }
        forest
    }

    /// Each stream of the forest once, from the leaves inwards: its number, its outer end, its inner end. The lowest place
    /// of a group is never an outer end.
    fn each_inwards(mut self, streams: &[Stream], mut step: impl FnMut(usize, usize, usize)) {
        for place in 0..PLACES {
            let mut outer = place;
            while self.degree[outer] == 1 && usize::from(self.labels[outer]) != outer {
                let i = usize::from(self.number[outer]);
                let s = &streams[i];
                let inner = usize::from(s.from) + usize::from(s.to) - outer;
                step(i, outer, inner);
                self.degree[outer] = 0;
                self.degree[inner] -= 1;
                self.number[inner] ^= i as u8;
                if inner > place {
                    break;
                }
                outer = inner;
            }
        }
    }

    /// Each place's net is handed on, so that only the lowest place of each group keeps one.
    pub fn hand_on(self, streams: &[Stream], state: &mut State) {
        self.each_inwards(streams, |i, outer, inner| {
            let net = state.nets[outer];
            state.flows[i] += if usize::from(streams[i].from) == outer { net } else { -net };
            state.nets[outer] = 0;
            state.nets[inner] += net;
        });
    }
}
