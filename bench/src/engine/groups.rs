// SPDX-License-Identifier: LicenseRef-Wengeludo
//! Groups of places: each place has a label, the lowest place of its group.

use crate::plants::{Stream, PLACES};

pub type Labels = [u8; PLACES];

pub fn own_numbers() -> Labels {
    std::array::from_fn(|u| u as u8)
}

/// The ends of a stream are joined; whether they were apart.
pub fn join(labels: &mut Labels, s: &Stream) -> bool {
    let (a, b) = (labels[usize::from(s.from)], labels[usize::from(s.to)]);
    if a == b {
        return false;
    }
    let (low, high) = (a.min(b), a.max(b));
    labels.iter_mut().for_each(|l| *l = if *l == high { low } else { *l });
    true
}

/// The labels after the streams that count.
pub fn group(streams: &[Stream], counts: impl Fn(&Stream) -> bool) -> Labels {
    let mut labels = own_numbers();
    for s in streams.iter().filter(|s| counts(s)) {
        join(&mut labels, s);
    }
    labels
}

pub fn one_label(labels: &Labels, s: &Stream) -> bool {
    labels[usize::from(s.from)] == labels[usize::from(s.to)]
}

/// How many of the places 0 to n bear their own number.
pub fn own_labels(labels: &Labels, units: usize) -> usize {
    (0..=units).filter(|&u| usize::from(labels[u]) == u).count()
}
