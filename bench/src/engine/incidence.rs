// SPDX-License-Identifier: LicenseRef-Wengeludo
//! The streams of each place.

use crate::plants::{Stream, MAX_STREAMS, PLACES};

/// A stream as one of its ends sees it.
#[derive(Clone, Copy, Default)]
pub struct Step {
    pub stream: u8,
    pub to: u8,
    pub forwards: bool,
}

/// The steps out of place u stand from start[u] up to start[u + 1].
pub struct Incidence {
    start: [u8; PLACES + 1],
    steps: [Step; 2 * MAX_STREAMS],
}

impl Incidence {
    pub fn new(streams: &[Stream]) -> Incidence {
        let mut start = [0u8; PLACES + 1];
        for s in streams {
            start[usize::from(s.from)] += 1;
            start[usize::from(s.to)] += 1;
        }
        let mut sum = 0;
        for first in &mut start {
            sum += *first;
            *first = sum;
        }
        let mut steps = [Step::default(); 2 * MAX_STREAMS];
        for (i, s) in streams.iter().enumerate().rev() {
            for (at, to, forwards) in [(s.from, s.to, true), (s.to, s.from, false)] {
                let first = &mut start[usize::from(at)];
                *first -= 1;
                steps[usize::from(*first)] = Step { stream: i as u8, to, forwards };
            }
        }
        Incidence { start, steps }
    }

    pub fn of(&self, place: usize) -> &[Step] {
        &self.steps[self.start[place].into()..self.start[place + 1].into()]
    }
}
