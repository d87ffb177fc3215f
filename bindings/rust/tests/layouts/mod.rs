// SPDX-License-Identifier: LicenseRef-Wengeludo
//! The survey of meter layouts against brute force: every set of streams, and whether the flows of those left out are all forced.
//!
//! The reference shares no method with the engine: the streams left out are forced exactly if their columns of the incidence matrix,
//! the units' rows, are independent. Such a matrix has the same rank over the numbers 0 and 1 as over fractions (it is totally
//! unimodular), so a column is a set of bits and elimination is exclusive or.
//!
//! A survey takes up to 4,096 ranks, so there is one input for ten of the sheet call.

use crate::agree::Subject;
use crate::draw::{Call, Draw};
use crate::reference::{file_of, read, Listed, Stream};
use crate::shrink;
use wengeludo_balance::raw;

const GUARD: usize = 64;
/// How many streams may be surveyed, and how many counts there are then.
const MOST: usize = 12;
const COUNTS: usize = MOST + 1;

/// A call: the plant file and the slice.
#[derive(Clone, Debug, PartialEq, Eq)]
struct Survey {
    file: Vec<u8>,
    slice: Vec<u16>,
}

/// What the call returns and leaves behind.
#[derive(Debug, PartialEq, Eq)]
struct Answer {
    returned: u8,
    count: usize,
    slice: Vec<u16>,
}

/// Whether these columns are independent.
fn independent(columns: impl Iterator<Item = u64>) -> bool {
    let mut kept: Vec<u64> = Vec::new();
    for mut column in columns {
        for &other in &kept {
            column = column.min(column ^ other);
        }
        if column == 0 {
            return false;
        }
        kept.push(column);
        kept.sort_unstable_by(|a, b| b.cmp(a));
    }
    true
}

/// The counts by brute force. The outside, bit 0, has no row.
fn counts(streams: &[Stream]) -> Vec<u16> {
    let mut counts = vec![0; streams.len() + 1];
    for set in 0..1u32 << streams.len() {
        let left = streams.iter().enumerate().filter(|(k, _)| set >> k & 1 == 0);
        if independent(left.map(|(_, s)| (1u64 << s.from ^ 1u64 << s.to) & !1)) {
            counts[set.count_ones() as usize] += 1;
        }
    }
    counts
}

fn expected(call: &Survey) -> Answer {
    let refused = |returned| Answer { returned, count: 0, slice: call.slice.clone() };
    if call.slice.len() < COUNTS {
        return refused(1);
    }
    let streams = match read(&call.file) {
        Err(number) => return refused(number),
        Ok(plant) => plant.streams,
    };
    if streams.len() > MOST {
        return refused(23);
    }
    let mut slice = call.slice.clone();
    slice[..=streams.len()].copy_from_slice(&counts(&streams));
    Answer { returned: 0, count: streams.len(), slice }
}

/// The engine's answer, guard elements round the slice.
fn found(call: &Survey) -> Result<Answer, String> {
    let file = call.file.clone();
    let guard = [0xA5C3; GUARD];
    let mut memory = [&guard[..], &call.slice, &guard].concat();
    let end = GUARD + call.slice.len();
    let mut count = 0xDEAD_BEEF;
    let returned = raw::layouts_of(&file, &mut memory[GUARD..end], &mut count);
    if memory[..GUARD] != guard || memory[end..] != guard {
        return Err("a guard changed".into());
    }
    if file != call.file {
        return Err("the file changed".into());
    }
    Ok(Answer { returned, count, slice: memory[GUARD..end].to_vec() })
}

fn difference(call: &Survey) -> Result<u8, String> {
    let (found, expected) = (found(call)?, expected(call));
    if found == expected {
        Ok(found.returned)
    } else {
        Err(format!("{found:?}, expected {expected:?}"))
    }
}

/// A plant of up to 14 streams, each unmetered, metered or metered with a range that the sheet call may refuse as 19.
fn plant(draw: &mut Draw) -> Listed {
    let units = if draw.below(2) == 0 { 1 + draw.below(5) } else { 1 + draw.below(32) };
    let streams = (0..draw.below(15))
        .map(|_| {
            let from = draw.below(units + 1);
            let to = (from + 1 + draw.below(units)) % (units + 1);
            let kind = draw.below(3);
            Stream { from, to, meter: (kind > 0).then_some((10, 100)), range: (kind > 1).then_some((5, 6)) }
        })
        .collect();
    Listed { units: units as u8, streams }
}

/// Files whole, cut, with a byte more and as for the sheet call; slices around 13 elements.
fn drawn(draw: &mut Draw) -> Survey {
    let mut file = file_of(&plant(draw));
    match draw.below(8) {
        0 => file.truncate(draw.below(file.len())),
        1 => file.push(0),
        2 | 3 => file = draw.call().file,
        _ => {}
    }
    let length = if draw.below(8) == 0 { draw.below(16) } else { COUNTS + draw.below(3) };
    Survey { file, slice: (0..length).map(|_| draw.bits() as u16).collect() }
}

/// Simpler calls: a simpler file, a plain slice of 13 elements.
fn simpler(call: &Survey) -> Vec<Survey> {
    let sheet = Call { file: call.file.clone(), office: 0, lasts: vec![0; 8], slice: vec![0; 880] };
    let mut all: Vec<Survey> =
        shrink::simpler_calls(&sheet).into_iter().map(|c| Survey { file: c.file, ..call.clone() }).collect();
    let plain = Survey { slice: vec![0; COUNTS], ..call.clone() };
    if plain != *call {
        all.push(plain);
    }
    all
}

#[test]
fn surveys_and_reference_agree() {
    let by_number = Subject::by_number("surveys of meter layouts", drawn, difference, simpler, 23);
    let tally = Subject { one_for: 10, ..by_number }.agree();
    println!("surveys: {}; refusals {}", tally.count(0), tally.refusals(1, 23));
    tally.all_met(&[0, 1, 3, 4, 5, 6, 7, 8, 9, 10, 11, 12, 18, 23], 0, 23);
}
