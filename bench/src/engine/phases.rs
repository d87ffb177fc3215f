// SPDX-License-Identifier: LicenseRef-Wengeludo
//! Improvements at a step from every place, and the phases: steps halved from the first down to 1, amounts settled anew
//! before each.

use super::distances::improve_from;
use super::incidence::Incidence;
use super::state::State;
use super::watch::Watch;
use crate::plants::{Stream, MAX_READING, MAX_WEIGHT, PLACES};

pub const FIRST_STEP: i64 = 1 << 29;

/// No amount of a metered stream goes farther.
const MOST_AMOUNT: i64 = 1 << 39;

/// No stream calls for a greater difference of potentials.
const MOST_MARGINAL: i64 = MAX_WEIGHT * (2 * (MOST_AMOUNT + MAX_READING) + FIRST_STEP);

/// Potentials are kept from here up to 0.
const POTENTIAL_FLOOR: i64 = -(PLACES as i64) * MOST_MARGINAL;

/// The potentials from the top: every gap above `most` becomes `most`, the highest comes within it of 0.
fn compress(potentials: &mut [i64; PLACES], most: i64) {
    let mut order: [usize; PLACES] = std::array::from_fn(|u| u);
    order.sort_by_key(|&u| std::cmp::Reverse(potentials[u]));
    let (mut last, mut raised) = (0, 0);
    for u in order {
        let gap = last - (potentials[u] + raised);
        raised += (gap - most).max(0);
        potentials[u] += raised;
        last = potentials[u];
    }
}

/// Whether some potential is below the floor.
fn sunk(potentials: &[i64; PLACES]) -> bool {
    potentials.iter().any(|&p| p < POTENTIAL_FLOOR)
}

/// Whether places must take in more than they can let out: only ranged streams cross their edge, and the lows in sum to
/// more than the highs out.
pub fn overfull(streams: &[Stream], marked: u64) -> bool {
    let mut more = 0;
    for s in streams {
        match (marked >> s.from & 1, marked >> s.to & 1) {
            (0, 1) if s.ranged => more += s.low,
            (1, 0) if s.ranged => more -= s.high,
            (from, to) if from != to => return false,
            _ => {}
        }
    }
    more > 0
}

/// Improvements at a step from each place with so much net. A search that is stuck leaves its place, unless the places that
/// it reached are overfull: then they are the answer.
pub fn phase<W: Watch>(
    streams: &[Stream],
    incidence: &Incidence,
    state: &mut State,
    step: i64,
    watch: &mut W,
) -> Result<(), u64> {
    for u in 0..PLACES {
        for _ in 0..(state.nets[u] / step).max(0) {
            if let Err(reached) = improve_from(streams, incidence, state, u, step, watch) {
                if overfull(streams, reached) {
                    return Err(reached);
                }
                break;
            }
            if sunk(&state.potentials) {
                compress(&mut state.potentials, MOST_MARGINAL);
                watch.closed();
            }
        }
    }
    Ok(())
}

/// From none: a balanced state in range, or places that show that there is none.
pub fn phases<W: Watch>(streams: &[Stream], incidence: &Incidence, state: &mut State, watch: &mut W) -> Result<(), u64> {
    *state = State::zero();
    let mut step = FIRST_STEP;
    while step > 0 {
        state.settle(streams);
        phase(streams, incidence, state, step, watch)?;
        step /= 2;
    }
    Ok(())
}

#[cfg(test)]
mod tests {
    use super::*;
    use crate::draws::Draws;

    /// The definition, word for word: of the places not done the highest; all not done are raised.
    fn closed(mut potentials: [i64; PLACES], most: i64) -> [i64; PLACES] {
        let mut done = [false; PLACES];
        let mut last = 0;
        for _ in 0..PLACES {
            let v = (0..PLACES).filter(|&u| !done[u]).max_by_key(|&u| potentials[u]).expect("a place not done");
            if potentials[v] + most < last {
                let by = last - most - potentials[v];
                (0..PLACES).filter(|&u| !done[u]).for_each(|u| potentials[u] += by);
            }
            done[v] = true;
            last = potentials[v];
        }
        potentials
    }

    /// The committed cases of the compression: potentials as the library holds them, 2^57 above what they are, 8 bytes each. A case has its
    /// lengths in front, and leaves off the end of the slice as far as it is the filling (reference/cases.py).
    #[test]
    fn committed_compressions() {
        const HELD: u64 = 1 << 57;
        const SIZE: usize = 8 * PLACES;
        let mut cases: &[u8] = include_bytes!("../../../crates/vectors/data/compressions.bin");
        let potential = |bytes: &[u8]| u64::from_be_bytes(bytes.try_into().expect("8 bytes")).wrapping_sub(HELD) as i64;
        let potentials = |bytes: &[u8]| -> [i64; PLACES] { std::array::from_fn(|u| potential(&bytes[8 * u..8 * u + 8])) };
        let mut count = 0;
        while !cases.is_empty() {
            let length = |at: usize| usize::from(u16::from_be_bytes([cases[at], cases[at + 1]]));
            let (given, told) = (length(2), length(4));
            assert!(given == SIZE && told <= SIZE);
            let mut slice = [cases[1]; SIZE];
            slice[..told].copy_from_slice(&cases[20 + SIZE..20 + SIZE + told]);
            let (mut found, after) = (potentials(&cases[20..]), potentials(&slice));
            if sunk(&found) {
                compress(&mut found, MOST_MARGINAL);
            }
            assert_eq!(found, after);
            (cases, count) = (&cases[20 + SIZE + told..], count + 1);
        }
        assert!(count > 50, "cases are missing");
    }

    #[test]
    fn gaps_are_closed() {
        let mut draws = Draws::new(7);
        for _ in 0..10_000 {
            let most = draws.pick(&[1, 9, 1_000, MOST_MARGINAL]);
            let potentials: [i64; PLACES] = std::array::from_fn(|_| -draws.between(0, 40 * most) * draws.between(0, 2));
            let mut found = potentials;
            compress(&mut found, most);
            assert_eq!(found, closed(potentials, most));
            assert!(found.iter().all(|p| (-(PLACES as i64) * most..=0).contains(p)));
        }
    }
}
