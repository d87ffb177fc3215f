// SPDX-License-Identifier: LicenseRef-Wengeludo
//! The sheet, written.

use super::classes::{self, Class};
use super::groups;
use super::watch::{Phase, Watch};
use super::Site;
use crate::plants::{Stream, MAX_STREAMS};

/// The least slice that is taken.
pub const LEAST_SLICE: usize = 9 * MAX_STREAMS + 16;

/// Whose sheet it is: the office, and the sheet's number among its sheets.
#[derive(Clone, Copy)]
pub struct Drawer {
    pub office: u8,
    pub number: u32,
}

/// The sheet at the front of the slice, and how many bytes it takes.
pub fn put<W: Watch>(site: &Site, flows: &[i64; MAX_STREAMS], drawer: Drawer, out: &mut [u8], watch: &mut W) -> usize {
    let streams = site.streams();
    let labels = groups::group(streams, |s| !s.metered);
    let classes = classes::classes(streams, &labels);
    let degrees = classes::degrees(streams, site.units, &labels);
    watch.phase(Phase::Classes);
    let mut at = 0;
    for (&class, &flow) in classes[..site.count].iter().zip(flows) {
        at += put_record(class, flow, &mut out[at..]);
    }
    let cost = cost(streams, flows);
    let verdict = classes::verdict(degrees, cost, classes::adjusted_weights(streams, &classes));
    put_total(drawer, cost, degrees, verdict, &mut out[at..]);
    watch.phase(Phase::Write);
    at + 16
}

/// The cost, or the greatest number of 64 bits where it is above that.
fn cost(streams: &[Stream], flows: &[i64; MAX_STREAMS]) -> u64 {
    let one = |s: &Stream, x: i64| {
        let off = (x - s.reading).unsigned_abs();
        off.saturating_mul(off).saturating_mul(s.weight as u64)
    };
    streams.iter().zip(flows).fold(0, |sum: u64, (s, x)| sum.saturating_add(one(s, *x)))
}

fn put_record(class: Class, flow: i64, out: &mut [u8]) -> usize {
    out[0] = match class {
        Class::Adjusted => 0x11,
        Class::AsRead => 0x12,
        Class::Given => 0x13,
        Class::Withheld => 0x14,
    };
    if class == Class::Withheld {
        return 1;
    }
    out[1..9].copy_from_slice(&flow.to_be_bytes());
    9
}

fn put_total(drawer: Drawer, cost: u64, degrees: usize, verdict: u8, out: &mut [u8]) {
    out[0] = 0x1E;
    out[1] = drawer.office;
    out[2..6].copy_from_slice(&drawer.number.to_be_bytes());
    out[6..14].copy_from_slice(&cost.to_be_bytes());
    out[14] = degrees as u8;
    out[15] = verdict;
}
