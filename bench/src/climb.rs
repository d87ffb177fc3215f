// SPDX-License-Identifier: LicenseRef-Wengeludo
//! A search for bad plants: changes are kept where what is sought of the plain engine's work does not fall. It goes on from the
//! plant that was recorded, and from drawn ones.

use crate::draws::Draws;
use crate::engine::{plant_of, work_on, Work};
use crate::plants::{draw, two_places, Kind, Plant, Stream, MAX_RANGE, MAX_READING, MAX_STREAMS, MAX_UNITS, MAX_WEIGHT};
use std::path::Path;
use std::time::{Duration, Instant};

/// How many plants are climbed from, one after the other.
const STARTS: u32 = 6;

/// Drawn plants among which a start is the worst.
const DRAWN: u64 = 30;

/// What is sought: among which kinds of plants, with ranges or without, what of their work should be great, and which file of
/// bench has the worst plant recorded.
#[derive(Clone, Copy)]
pub struct Aim {
    pub name: &'static str,
    pub file: &'static str,
    pub kinds: &'static [Kind],
    pub ranges: bool,
    pub of: fn(&Work) -> u64,
}

pub const AIMS: [Aim; 3] = [
    Aim {
        name: "work, no ranges",
        file: "worst.bin",
        kinds: &[Kind::Extremes, Kind::Site, Kind::Ties],
        ranges: false,
        of: Work::total,
    },
    Aim { name: "work, ranges", file: "worst_ranges.bin", kinds: &RANGED, ranges: true, of: Work::total },
    Aim {
        name: "improvements, ranges",
        file: "most_improvements.bin",
        kinds: &RANGED,
        ranges: true,
        of: |work| work.improvements,
    },
];

const RANGED: [Kind; 3] = [Kind::Ranges, Kind::Pipes, Kind::Overfull];

/// The worst plant found, its work, and how many plants were tried.
pub struct Worst {
    pub plant: Plant,
    pub work: Work,
    pub tried: u64,
}

/// A stream anew, within the limits.
fn any_stream(draws: &mut Draws, units: usize, ranges: bool) -> Stream {
    let (from, to) = two_places(draws, units);
    if draws.chance(15) {
        return Stream::unmetered(from, to);
    }
    let weight = if draws.chance(50) { draws.pick(&[1, MAX_WEIGHT]) } else { draws.between(1, MAX_WEIGHT) };
    let s = Stream::metered(from, to, weight, any_reading(draws));
    if ranges && draws.chance(70) {
        any_range(draws, s)
    } else {
        s
    }
}

/// The stream with a range anew: anywhere, at an end, round the old one.
fn any_range(draws: &mut Draws, s: Stream) -> Stream {
    let end = |draws: &mut Draws| match draws.below(3) {
        0 => draws.pick(&[-MAX_RANGE, 0, MAX_RANGE]),
        1 => draws.between(-9, 9),
        _ => draws.between(-MAX_RANGE, MAX_RANGE),
    };
    let (a, b) = match draws.below(3) {
        0 if s.ranged => (s.low + draws.between(-3, 3), s.high + draws.between(-3, 3)),
        1 if s.ranged => (s.low, s.low + draws.between(0, 9)),
        _ => (end(draws), end(draws)),
    };
    s.within(a.min(b).max(-MAX_RANGE), a.max(b).min(MAX_RANGE))
}

fn any_reading(draws: &mut Draws) -> i64 {
    match draws.below(3) {
        0 => draws.pick(&[-MAX_READING, MAX_READING]),
        1 => draws.between(-9, 9),
        _ => draws.between(-MAX_READING, MAX_READING),
    }
}

/// One change of one stream, or two streams exchanged.
fn change(draws: &mut Draws, plant: &mut Plant, ranges: bool) {
    let units = plant.units;
    let (i, j) = (draws.below(plant.streams.len()), draws.below(plant.streams.len()));
    let s = &mut plant.streams[i];
    match draws.below(if ranges { 9 } else { 6 }) {
        0 => *s = any_stream(draws, units, ranges),
        1 => (s.from, s.to) = two_places(draws, units),
        2 if s.metered => s.reading = any_reading(draws),
        3 if s.metered => s.weight = draws.between(1, MAX_WEIGHT),
        4 if s.metered => s.reading = (s.reading + draws.between(-3, 3)).clamp(-MAX_READING, MAX_READING),
        5 => plant.streams.swap(i, j),
        6 | 7 if s.metered => *s = any_range(draws, *s),
        8 => *s = Stream { ranged: false, low: Stream::default().low, high: Stream::default().high, ..*s },
        _ => {}
    }
}

/// The plant that was recorded.
fn recorded(aim: Aim) -> Option<(Plant, Work)> {
    let file = std::fs::read(Path::new(env!("CARGO_MANIFEST_DIR")).join(aim.file)).ok()?;
    Some((plant_of(&file)?, work_on(&file)))
}

/// The worst of some drawn plants of the greatest size.
fn drawn(aim: Aim, kind: Kind, first_seed: u64) -> (Plant, Work) {
    (first_seed..first_seed + DRAWN)
        .map(|seed| draw(kind, MAX_UNITS, MAX_STREAMS, seed))
        .map(|plant| (work_on(&plant.file()), plant))
        .max_by_key(|(work, _)| (aim.of)(work))
        .map(|(work, plant)| (plant, work))
        .expect("some plant is drawn")
}

/// Climbs for so many seconds in all.
pub fn climb(aim: Aim, seconds: f64) -> Worst {
    let mut worst: Option<(Plant, Work)> = None;
    let mut tried = 0;
    for k in 0..STARTS {
        let kind = aim.kinds[k as usize % aim.kinds.len()];
        let seed = 1_000_000 + u64::from(k) * DRAWN;
        let start = recorded(aim).filter(|_| k == 0).unwrap_or_else(|| drawn(aim, kind, seed));
        let (plant, work) = climb_from(aim, start, seed, seconds / f64::from(STARTS), &mut tried);
        if worst.as_ref().map_or(true, |(_, most)| (aim.of)(&work) > (aim.of)(most)) {
            worst = Some((plant, work));
        }
    }
    let (plant, work) = worst.expect("there is a start");
    Worst { plant, work, tried }
}

fn climb_from(aim: Aim, from: (Plant, Work), seed: u64, seconds: f64, tried: &mut u64) -> (Plant, Work) {
    let (mut plant, mut work) = from;
    let mut draws = Draws::new(seed);
    let end = Instant::now() + Duration::from_secs_f64(seconds);
    while Instant::now() < end {
        let mut next = plant.clone();
        for _ in 0..=draws.below(3) {
            change(&mut draws, &mut next, aim.ranges);
        }
        let found = work_on(&next.file());
        *tried += 1;
        if (aim.of)(&found) >= (aim.of)(&work) {
            (plant, work) = (next, found);
        }
    }
    (plant, work)
}
