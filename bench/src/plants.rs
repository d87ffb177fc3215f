// SPDX-License-Identifier: LicenseRef-Wengeludo
//! Plants drawn from seeds: several kinds, any number of units and streams within the limits; and their files.

mod ranges;

use crate::draws::Draws;

pub const MAX_UNITS: usize = 32;
pub const PLACES: usize = MAX_UNITS + 1;
pub const MAX_STREAMS: usize = 96;
pub const MAX_WEIGHT: i64 = 1_000;
pub const MAX_READING: i64 = 4_000_000;
pub const MAX_RANGE: i64 = 2_000_000_000;

/// No amount goes farther than this.
pub const MOST_FLOW: i64 = 1 << 46;

/// A stream; an unmetered one has weight and reading 0. Where there is no range, low and high are as far as amounts go.
#[derive(Clone, Copy, Debug, PartialEq, Eq)]
pub struct Stream {
    pub from: u8,
    pub to: u8,
    pub metered: bool,
    pub weight: i64,
    pub reading: i64,
    pub ranged: bool,
    pub low: i64,
    pub high: i64,
}

impl Default for Stream {
    fn default() -> Stream {
        Stream { from: 0, to: 0, metered: false, weight: 0, reading: 0, ranged: false, low: -MOST_FLOW, high: MOST_FLOW }
    }
}

impl Stream {
    pub fn unmetered(from: u8, to: u8) -> Stream {
        Stream { from, to, ..Stream::default() }
    }

    pub fn metered(from: u8, to: u8, weight: i64, reading: i64) -> Stream {
        Stream { metered: true, weight, reading, ..Stream::unmetered(from, to) }
    }

    /// The same with a range.
    pub fn within(self, low: i64, high: i64) -> Stream {
        Stream { ranged: true, low, high, ..self }
    }
}

#[derive(Clone, Debug, PartialEq, Eq)]
pub struct Plant {
    pub units: usize,
    pub streams: Vec<Stream>,
}

#[derive(Clone, Copy, Debug, PartialEq, Eq)]
pub enum Kind {
    /// Ends, weights and readings anywhere within their limits, half of the readings at an edge.
    Extremes,
    /// A steam and condensate network, its readings near a balanced flow.
    Site,
    /// Equal weights and small readings: many flows cost the same.
    Ties,
    /// Random extremes with ranges round a balanced flow.
    Ranges,
    /// A network with ranges of what its pipes can carry.
    Pipes,
    /// Random extremes with ranges that no balanced flow keeps.
    Overfull,
}

impl Kind {
    pub const ALL: [Kind; 6] = [Kind::Extremes, Kind::Site, Kind::Ties, Kind::Ranges, Kind::Pipes, Kind::Overfull];

    pub fn name(self) -> &'static str {
        match self {
            Kind::Extremes => "random extremes",
            Kind::Site => "as a site has them",
            Kind::Ties => "tie-rich",
            Kind::Ranges => "ranges, random",
            Kind::Pipes => "ranges, as a site has them",
            Kind::Overfull => "ranges, none in them",
        }
    }
}

/// The plant of a kind, with so many units and streams, that a seed gives.
pub fn draw(kind: Kind, units: usize, streams: usize, seed: u64) -> Plant {
    let mut draws = Draws::new(seed);
    match kind {
        Kind::Extremes => extremes(&mut draws, units, streams),
        Kind::Site => site(&mut draws, units, streams),
        Kind::Ties => ties(&mut draws, units, streams),
        Kind::Ranges => ranges::ranges(&mut draws, units, streams),
        Kind::Pipes => ranges::pipes(&mut draws, units, streams),
        Kind::Overfull => ranges::overfull(&mut draws, units, streams),
    }
}

/// Two different places of a plant.
pub fn two_places(draws: &mut Draws, units: usize) -> (u8, u8) {
    let from = draws.below(units + 1);
    let to = (from + 1 + draws.below(units)) % (units + 1);
    (from as u8, to as u8)
}

fn extremes(draws: &mut Draws, units: usize, count: usize) -> Plant {
    let unmetered = draws.pick(&[0, 10, 20, 30]);
    let edges = draws.pick(&[0, 50, 100]);
    let stream = |draws: &mut Draws| {
        let (from, to) = two_places(draws, units);
        if draws.chance(unmetered) {
            return Stream::unmetered(from, to);
        }
        let reading =
            if draws.chance(edges) { draws.pick(&[-MAX_READING, MAX_READING]) } else { draws.between(-MAX_READING, MAX_READING) };
        Stream::metered(from, to, draws.between(1, MAX_WEIGHT), reading)
    };
    let streams = (0..count).map(|_| stream(draws)).collect();
    Plant { units, streams }
}

fn ties(draws: &mut Draws, units: usize, count: usize) -> Plant {
    let unmetered = draws.pick(&[0, 10, 20]);
    let weight = draws.pick(&[1, 10, 1_000]);
    let span = draws.pick(&[1, 2, 5, 1_000]);
    let stream = |draws: &mut Draws| {
        let (from, to) = two_places(draws, units);
        if draws.chance(unmetered) {
            return Stream::unmetered(from, to);
        }
        Stream::metered(from, to, weight, draws.between(-span, span))
    };
    let streams = (0..count).map(|_| stream(draws)).collect();
    Plant { units, streams }
}

/// The ends of a steam and condensate network's streams. From five units on: deaerator 1, boiler header 2, low header 3,
/// condensate tank 4, then boilers, turbines and buildings; spare and bypass streams up to the count.
fn site_ends(draws: &mut Draws, units: usize, count: usize) -> Vec<(u8, u8)> {
    let (deaerator, high, low, tank) = (1, 2, 3, 4);
    let mut ends = vec![(0, deaerator), (low, deaerator), (tank, deaerator), (deaerator, 0), (high, low)];
    for unit in 5..=units as u8 {
        match unit % 6 {
            5 => ends.extend([(deaerator, unit), (unit, high), (unit, 0)]),
            0 => ends.extend([(high, unit), (unit, low), (unit, tank)]),
            _ => ends.extend([(if unit % 2 == 0 { low } else { high }, unit), (unit, tank), (unit, 0)]),
        }
    }
    while ends.len() < count {
        let spare = if draws.chance(50) { draws.pick(&ends) } else { two_places(draws, units) };
        ends.push(spare);
    }
    ends.truncate(count);
    ends
}

/// A balanced flow along the streams: amounts moved round cycles that single steps of a walk close.
fn balanced(draws: &mut Draws, units: usize, ends: &[(u8, u8)]) -> Vec<i64> {
    let mut amounts = vec![0; ends.len()];
    for _ in 0..4 * ends.len() {
        let amount = draws.between(100, 5_000);
        let (mut came_by, mut order) = ([usize::MAX; PLACES], Vec::new());
        let mut at = draws.below(units + 1);
        let start = at;
        for _ in 0..2 * units + 2 {
            let out: Vec<usize> = (0..ends.len()).filter(|&i| usize::from(ends[i].0) == at).collect();
            if out.is_empty() {
                break;
            }
            let i = draws.pick(&out);
            order.push(i);
            at = ends[i].1.into();
            if at == start || came_by[at] != usize::MAX {
                break;
            }
            came_by[at] = order.len();
        }
        let first = if at == start { 0 } else { came_by[at] };
        if first < order.len() {
            order[first..].iter().for_each(|&i| amounts[i] += amount);
        }
    }
    amounts
}

fn site(draws: &mut Draws, units: usize, count: usize) -> Plant {
    site_and_flow(draws, units, count).0
}

/// A site and the balanced flow that its readings lie near.
fn site_and_flow(draws: &mut Draws, units: usize, count: usize) -> (Plant, Vec<i64>) {
    let ends = site_ends(draws, units, count);
    let amounts = balanced(draws, units, &ends);
    let weights = draws.pick(&[&[10][..], &[1, 4, 10, 40, 100], &[1_000, 250, 1], &[1, 1_000]]);
    let metered = draws.pick(&[70, 80, 90]);
    let fault = if draws.chance(20) { draws.below(count) } else { count };
    let stream = |draws: &mut Draws, i: usize| {
        let (from, to) = ends[i];
        if !draws.chance(metered) {
            return Stream::unmetered(from, to);
        }
        let weight = draws.pick(weights);
        let error = draws.normal() * (1_000.0 / weight as f64).sqrt() * if i == fault { 50.0 } else { 1.0 };
        let reading = (amounts[i] + error.round() as i64).clamp(-MAX_READING, MAX_READING);
        Stream::metered(from, to, weight, reading)
    };
    let streams = (0..count).map(|i| stream(draws, i)).collect();
    (Plant { units, streams }, amounts)
}

impl Plant {
    /// The plant's file.
    pub fn file(&self) -> Vec<u8> {
        let mut bytes = vec![0x01, self.units as u8];
        for s in &self.streams {
            if s.metered {
                bytes.extend([if s.ranged { 0x06 } else { 0x02 }, s.from, s.to]);
                bytes.extend((s.weight as u16).to_be_bytes());
                bytes.extend((s.reading as i32).to_be_bytes());
                if s.ranged {
                    bytes.extend((s.low as i32).to_be_bytes());
                    bytes.extend((s.high as i32).to_be_bytes());
                }
            } else {
                bytes.extend([0x03, s.from, s.to]);
            }
        }
        bytes.extend([0x04, self.streams.len() as u8]);
        bytes
    }
}
