// SPDX-License-Identifier: LicenseRef-Wengeludo
//! The four classes of stream, the degrees of freedom and the verdict.

use super::groups::{self, Labels};
use crate::plants::{Stream, MAX_STREAMS, MAX_UNITS, PLACES};

#[derive(Clone, Copy, PartialEq, Eq)]
pub enum Class {
    Adjusted,
    AsRead,
    Given,
    Withheld,
}

/// The class of a metered stream.
fn of_metered(labels: &Labels, s: &Stream) -> Class {
    if groups::one_label(labels, s) {
        Class::AsRead
    } else {
        Class::Adjusted
    }
}

/// A forest of the unmetered streams, rooted: for each place the stream towards its root, and how far the root is.
struct Rooted {
    parent: [u8; PLACES],
    depth: [u8; PLACES],
    via: [u8; PLACES],
}

const NONE: u8 = u8::MAX;

/// The places of a tree turned so that `place` is its root, then hung below `above` by stream i.
fn hang(forest: &mut Rooted, place: u8, above: u8, i: u8) {
    let (mut at, mut above, mut via) = (place, above, i);
    while at != NONE {
        let u = usize::from(at);
        let next = (forest.parent[u], forest.via[u]);
        (forest.parent[u], forest.via[u]) = (above, via);
        (above, via) = (at, next.1);
        at = next.0;
    }
}

/// The class of each stream, in one pass: given is what no other unmetered stream closes a loop over.
pub fn classes(streams: &[Stream], labels: &Labels) -> [Class; MAX_STREAMS] {
    let mut classes = [Class::Withheld; MAX_STREAMS];
    let mut forest = Rooted { parent: [NONE; PLACES], depth: [0; PLACES], via: [NONE; PLACES] };
    let mut joined = groups::own_numbers();
    let mut loops = [0u8; MAX_STREAMS];
    let mut count = 0;
    for (i, s) in streams.iter().enumerate() {
        if s.metered {
            classes[i] = of_metered(labels, s);
        } else if groups::join(&mut joined, s) {
            hang(&mut forest, s.from, s.to, i as u8);
            classes[i] = Class::Given;
        } else {
            loops[count] = i as u8;
            count += 1;
        }
    }
    if count > 0 {
        depths(&mut forest);
    }
    for &i in &loops[..count] {
        close(&forest, &streams[usize::from(i)], &mut classes);
    }
    classes
}

/// How far each place is from its root.
fn depths(forest: &mut Rooted) {
    for u in 0..PLACES {
        let (mut at, mut depth) = (forest.parent[u], 0);
        while at != NONE {
            at = forest.parent[usize::from(at)];
            depth += 1;
        }
        forest.depth[u] = depth;
    }
}

/// The forest's streams between the ends of a stream lie on a loop with it.
fn close(forest: &Rooted, s: &Stream, classes: &mut [Class; MAX_STREAMS]) {
    let (mut a, mut b) = (usize::from(s.from), usize::from(s.to));
    while a != b {
        if forest.depth[a] < forest.depth[b] {
            std::mem::swap(&mut a, &mut b);
        }
        classes[usize::from(forest.via[a])] = Class::Withheld;
        a = forest.parent[a].into();
    }
}

/// The number of groups less the number of connected pieces.
pub fn degrees(streams: &[Stream], units: usize, labels: &Labels) -> usize {
    let pieces = groups::group(streams, |_| true);
    groups::own_labels(labels, units) - groups::own_labels(&pieces, units)
}

/// Critical values of chi-square at 95 per cent, in thousandths, by degrees minus one.
const CRITICAL: [u64; MAX_UNITS] = [
    3841, 5991, 7815, 9488, 11070, 12592, 14067, 15507, 16919, 18307, 19675, 21026, 22362, 23685, 24996, 26296, 27587, 28869,
    30144, 31410, 32671, 33924, 35172, 36415, 37652, 38885, 40113, 41337, 42557, 43773, 44985, 46194,
];

/// The summed weights of the adjusted streams.
pub fn adjusted_weights(streams: &[Stream], classes: &[Class]) -> u64 {
    streams.iter().zip(classes).filter(|(_, class)| **class == Class::Adjusted).map(|(s, _)| s.weight as u64).sum()
}

/// 0 (pass), 1 (fail), 2 (none), 3 (close), the adjusted streams having these weights in sum.
pub fn verdict(degrees: usize, cost: u64, weights: u64) -> u8 {
    match degrees.checked_sub(1) {
        None => 2,
        Some(at) if cost <= CRITICAL[at] => 0,
        Some(at) if cost - CRITICAL[at] <= weights / 4 => 3,
        Some(_) => 1,
    }
}
