// SPDX-License-Identifier: LicenseRef-Wengeludo
//! Flows found elsewhere, of plants with wide weights: the check against its rules by products in 128 bits.
//!
//! A flow that passes is made backwards, and no flow is looked for: a balanced flow by rings, numbers of the places, then readings at
//! which these numbers show that flow. Then something is changed.

use crate::agree::Subject;
use crate::draw::Draw;
use wengeludo_balance::raw::{self, WideParts};
use wengeludo_balance::{Refusal, WidePlant, MAX_WIDE_FLOW, MAX_WIDE_NUMBER, MAX_WIDE_READING, MAX_WIDE_WEIGHT};

/// A call of the check, stream by stream; a slice of `cut` may be shorter by as much as it says.
#[derive(Clone, Debug, PartialEq, Eq)]
struct Check {
    units: u8,
    count: usize,
    streams: Vec<Stream>,
    flow: Vec<i64>,
    numbers: Vec<i64>,
    /// Which of the eight slices of the parts is shorter, and by how much.
    cut: (usize, usize),
}

#[derive(Clone, Debug, Default, PartialEq, Eq)]
struct Stream {
    from: u8,
    to: u8,
    metered: u8,
    weight: u64,
    reading: i64,
    ranged: u8,
    low: i64,
    high: i64,
}

impl Stream {
    fn fault(&self, units: u8) -> u8 {
        match self {
            s if s.from > units || s.to > units => 7,
            s if s.from == s.to => 8,
            s if s.metered == 0 => 0,
            s if s.weight == 0 || s.weight > 1 << 40 => 9,
            s if i128::from(s.reading).abs() > 1 << 40 => 10,
            s if s.ranged != 0 && s.low > s.high => 18,
            _ => 0,
        }
    }

    /// Whether the flow is in range, and the difference of the numbers within its bounds.
    fn shows(&self, flow: i64, difference: i128) -> bool {
        if self.metered == 0 {
            return difference == 0;
        }
        let (weight, d) = (i128::from(self.weight), i128::from(flow) - i128::from(self.reading));
        let (low, high) = if self.ranged == 0 { (None, None) } else { (Some(self.low), Some(self.high)) };
        let bottom = low == Some(flow) || weight * (2 * d - 1) <= difference;
        let top = high == Some(flow) || difference <= weight * (2 * d + 1);
        bottom && top && low.map_or(true, |low| low <= flow) && high.map_or(true, |high| flow <= high)
    }
}

fn expected(call: &Check) -> u8 {
    let places = usize::from(call.units) + 1;
    let shortest = if call.cut.0 < 8 { call.streams.len().saturating_sub(call.cut.1) } else { call.streams.len() };
    if shortest < call.count || call.flow.len() < call.count || call.numbers.len() < places {
        return 1;
    }
    match (call.units, call.count) {
        (0, _) | (33.., _) => return 6,
        (_, 97..) => return 5,
        _ => {}
    }
    let streams = &call.streams[..call.count];
    if let Some(fault) = streams.iter().map(|s| s.fault(call.units)).find(|fault| *fault != 0) {
        return fault;
    }
    let numbers: Vec<i128> = call.numbers[..places].iter().map(|x| i128::from(*x)).collect();
    let mut nets = vec![0_i128; places];
    let mut shown = numbers.iter().all(|x| x.abs() <= 1 << 61);
    for (s, flow) in streams.iter().zip(&call.flow) {
        let (from, to) = (usize::from(s.from), usize::from(s.to));
        nets[to] += i128::from(*flow);
        nets[from] -= i128::from(*flow);
        shown &= i128::from(*flow).abs() <= 1 << 55 && s.shows(*flow, numbers[to] - numbers[from]);
    }
    if shown && nets.iter().all(|net| *net == 0) {
        0
    } else {
        26
    }
}

fn returned(call: &Check) -> u8 {
    fn column<T>(call: &Check, which: usize, of: impl Fn(&Stream) -> T) -> Vec<T> {
        let less = if call.cut.0 == which { call.cut.1 } else { 0 };
        call.streams.iter().take(call.streams.len().saturating_sub(less)).map(of).collect()
    }
    let (from, to, metered) = (column(call, 0, |s| s.from), column(call, 1, |s| s.to), column(call, 2, |s| s.metered));
    let (weight, reading, ranged) =
        (column(call, 3, |s| s.weight), column(call, 4, |s| s.reading), column(call, 5, |s| s.ranged));
    let (low, high) = (column(call, 6, |s| s.low), column(call, 7, |s| s.high));
    let parts = WideParts {
        units: call.units,
        count: call.count,
        from: &from,
        to: &to,
        metered: &metered,
        weight: &weight,
        reading: &reading,
        ranged: &ranged,
        low: &low,
        high: &high,
    };
    raw::check_flow(parts, &call.flow, &call.numbers)
}

fn difference(call: &Check) -> Result<u8, String> {
    let (found, expected) = (returned(call), expected(call));
    if found == expected {
        Ok(found)
    } else {
        Err(format!("returned {found}, expected {expected}"))
    }
}

/// A number of at most so many bits, of either sign, small ones as often as large ones.
fn sized(draw: &mut Draw, bits: usize) -> i64 {
    let size = (draw.bits() >> (64 - 1 - draw.below(bits))) as i64 >> 1;
    if draw.below(2) == 0 {
        size
    } else {
        -size
    }
}

/// A ring of streams by chance, forwards or backwards, that comes back to where it began; none where it does not.
fn ring(draw: &mut Draw, streams: &[Stream]) -> Vec<(usize, i64)> {
    let mut at = streams[draw.below(streams.len())].from;
    let mut way: Vec<(u8, usize, i64)> = Vec::new();
    for _ in 0..12 {
        let k = draw.below(streams.len());
        let next = match &streams[k] {
            s if s.from == at => (s.to, 1),
            s if s.to == at => (s.from, -1),
            _ => continue,
        };
        way.push((at, k, next.1));
        at = next.0;
        if let Some(first) = way.iter().position(|step| step.0 == at) {
            return way[first..].iter().map(|(_, k, sign)| (*k, *sign)).collect();
        }
    }
    Vec::new()
}

/// Streams without readings, some of them unmetered; and numbers of the places, equal where an unmetered stream joins them.
fn structure(draw: &mut Draw) -> (u8, Vec<Stream>, Vec<i64>) {
    let most = [3, 8, 32][draw.below(3)];
    let units = 1 + draw.below(most);
    let bits = [4, 20, 40, 61][draw.below(4)];
    let mut numbers: Vec<i64> = (0..=units).map(|_| sized(draw, bits)).collect();
    let mut streams = Vec::new();
    for _ in 0..[1, 3, 10, 96][draw.below(4)].min(1 + draw.below(96)) {
        let from = draw.below(units + 1);
        let to = (from + 1 + draw.below(units)) % (units + 1);
        let metered = [0, 1, 1, 1, 1, 255][draw.below(6)];
        if metered == 0 {
            let (one, gone) = (numbers[from], numbers[to]);
            numbers.iter_mut().filter(|x| **x == gone).for_each(|x| *x = one);
        }
        let weight = (draw.bits() >> (24 + draw.below(40))).max(1);
        streams.push(Stream { from: from as u8, to: to as u8, metered, weight, ..Stream::default() });
    }
    (units as u8, streams, numbers)
}

/// The reading at which the numbers show the flow, where one is within its limit; a range about the flow, or one that excuses it.
fn read_by(draw: &mut Draw, s: &mut Stream, flow: i64, difference: i64) {
    let twice = 2 * s.weight as i64;
    let d = difference.div_euclid(twice) + i64::from(difference.rem_euclid(twice) > twice / 2);
    s.reading = flow.saturating_sub(d);
    s.ranged = [0, 0, 0, 1, 200][draw.below(5)];
    s.low = flow - [0, 1, 1 << 30][draw.below(3)];
    s.high = flow + [0, 1, 1 << 30][draw.below(3)];
    if s.ranged != 0 && s.low == flow && draw.below(2) == 0 {
        s.reading = s.reading.saturating_sub(sized(draw, 40).abs()); // read below its low
    }
    if draw.below(3) == 0 && s.ranged != 0 {
        (s.low, s.high) = (if s.low < flow { i64::MIN } else { flow }, if s.high > flow { i64::MAX } else { flow });
    }
}

/// One thing changed.
fn damage(draw: &mut Draw, call: &mut Check) {
    let (k, u) = (draw.below(call.streams.len()), draw.below(call.numbers.len()));
    let by = [1, -1, 2, 1000, 1 << 40, -(1 << 55), 1 << 62, i64::MIN][draw.below(8)];
    let s = &mut call.streams[k];
    match draw.below(16) {
        0 | 1 => call.flow[k] = call.flow[k].wrapping_add(by),
        2..=4 => call.numbers[u] = call.numbers[u].wrapping_add(by),
        5 => call.numbers.iter_mut().for_each(|x| *x = x.wrapping_add(by)),
        6 => s.reading = s.reading.wrapping_add(by),
        7 => s.reading = [1 << 40, (1 << 40) + 1, -(1 << 40), -(1 << 40) - 1, i64::MIN][draw.below(5)],
        8 => s.weight = [0, 1, 1 << 40, (1 << 40) + 1, u64::MAX, s.weight.wrapping_mul(2)][draw.below(6)],
        9 => (s.low, s.high) = (s.low.wrapping_add(by), s.high.wrapping_add(by)),
        10 => (s.ranged, s.low, s.high) = (1, call.flow[k].wrapping_add(draw.between(-1, 2)), call.flow[k].wrapping_add(1)),
        11 => s.to = [s.from, 33, 255, call.units.wrapping_add(1)][draw.below(4)],
        12 => call.units = [0, 32, 33, 255, call.units.wrapping_add(1)][draw.below(5)],
        13 => call.cut = (draw.below(8), 1 + draw.below(3)),
        14 => [&mut call.flow, &mut call.numbers][draw.below(2)].truncate(k),
        _ => call.count = [0, 96, 97, 1 << 40, call.count.saturating_sub(1)][draw.below(5)],
    }
}

fn drawn(draw: &mut Draw) -> Check {
    let (units, mut streams, numbers) = structure(draw);
    let mut flow = vec![0_i64; streams.len()];
    let bits = [3, 20, 40, 52][draw.below(4)];
    for _ in 0..2 * streams.len() {
        let amount = sized(draw, bits);
        ring(draw, &streams).into_iter().for_each(|(k, sign)| flow[k] = (flow[k] + sign * amount).clamp(-(1 << 60), 1 << 60));
    }
    for (s, flow) in streams.iter_mut().zip(&flow) {
        let difference = numbers[usize::from(s.to)] - numbers[usize::from(s.from)];
        read_by(draw, s, *flow, difference);
    }
    if draw.below(40) == 0 {
        streams.resize(97 + draw.below(3), streams[0].clone());
        flow.resize(streams.len(), 0);
    }
    let mut call = Check { units, count: streams.len(), streams, flow, numbers, cut: (8, 0) };
    for _ in 0..[0, 0, 1, 1, 2][draw.below(5)] {
        damage(draw, &mut call);
        if call.flow.len() < call.streams.len() || call.numbers.is_empty() {
            break;
        }
    }
    call
}

/// Simpler calls: without the last stream, with a number made 0 or halved.
fn simpler(call: &Check) -> Vec<Check> {
    let mut all = Vec::new();
    if call.count == call.streams.len() && call.count > 1 && call.flow.len() == call.count {
        for k in 0..call.count {
            let mut less = Check { count: call.count - 1, ..call.clone() };
            less.streams.remove(k);
            less.flow.remove(k);
            all.push(less);
        }
    }
    let halved = |x: i64| [0, x / 2].into_iter().filter(move |y| *y != x);
    for u in 0..call.numbers.len() {
        all.extend(halved(call.numbers[u]).map(|x| {
            let mut c = call.clone();
            c.numbers[u] = x;
            c
        }));
    }
    for k in 0..call.flow.len() {
        all.extend(halved(call.flow[k]).map(|x| {
            let mut c = call.clone();
            c.flow[k] = x;
            c
        }));
    }
    all
}

#[test]
fn flows_and_reference_agree() {
    let tally = Subject::by_number("the check of a flow", drawn, difference, simpler, 26).agree();
    println!("passed: {}; refusals {}", tally.count(0), tally.refusals(1, 26));
    tally.all_met(&[0, 1, 5, 6, 7, 8, 9, 10, 18, 26], 0, 26);
}

/// Each limit of the crate: taken at it, refused beyond it.
#[test]
fn limits() {
    let out = |plant: WidePlant| plant.metered_within(1, 0, 1, 0, i64::MIN, i64::MAX);
    let one = |weight, reading| out(WidePlant::new(1).metered_within(0, 1, weight, reading, 0, 0)).check(&[0, 0], &[0, 0]);
    assert_eq!([1, MAX_WIDE_WEIGHT].map(|weight| one(weight, 0)), [Ok(()); 2]);
    assert_eq!([0, MAX_WIDE_WEIGHT + 1, u64::MAX].map(|weight| one(weight, 0)), [Err(Refusal::Weight); 3]);
    assert_eq!([MAX_WIDE_READING, -MAX_WIDE_READING].map(|reading| one(1, reading)), [Ok(()); 2]);
    let beyond = [MAX_WIDE_READING + 1, -MAX_WIDE_READING - 1, i64::MIN, i64::MAX];
    assert_eq!(beyond.map(|reading| one(1, reading)), [Err(Refusal::Reading); 4]);
    let bare = WidePlant::new(1).unmetered(0, 1).unmetered(1, 0);
    let flows = [MAX_WIDE_FLOW, -MAX_WIDE_FLOW, MAX_WIDE_FLOW + 1, -MAX_WIDE_FLOW - 1, i64::MIN];
    let broken = Err(Refusal::RuleBroken);
    assert_eq!(flows.map(|x| bare.check(&[x, x], &[0, 0])), [Ok(()), Ok(()), broken, broken, broken]);
    let numbers = [MAX_WIDE_NUMBER, -MAX_WIDE_NUMBER, MAX_WIDE_NUMBER + 1, -MAX_WIDE_NUMBER - 1, i64::MIN];
    assert_eq!(numbers.map(|x| bare.check(&[0, 0], &[x, x])), [Ok(()), Ok(()), broken, broken, broken]);
    let pinned = WidePlant::new(1).metered_within(0, 1, 1, 0, 0, 0).metered_within(1, 0, 1, 0, 0, 0);
    assert_eq!(pinned.check(&[0, 0], &[-MAX_WIDE_NUMBER, MAX_WIDE_NUMBER]), Ok(()));
    assert_eq!(WidePlant::new(1).metered_within(0, 1, 1, 0, i64::MAX, i64::MIN).check(&[0], &[0, 0]), Err(Refusal::Range));
    assert_eq!([0, 33].map(|units| WidePlant::new(units).check(&[], &[0; 34])), [Err(Refusal::Units); 2]);
    assert_eq!(WidePlant::new(32).check(&[], &[0; 33]), Ok(()));
    assert_eq!(WidePlant::new(32).check(&[], &[0; 32]), Err(Refusal::SliceTooShort));
    assert_eq!(bare.check(&[0], &[0, 0]), Err(Refusal::SliceTooShort));
}

/// The bounds of the numbers, to the unit, at the greatest weight and readings: 2^40 * (2 * 2^19 + 1) is near 2^60.
#[test]
fn bounds() {
    for (weight, d) in
        [(1_u64, 0_i64), (1, -3), (10, 1), (1 << 40, 0), (1 << 40, 1 << 19), (1 << 40, -(1 << 19)), ((1 << 40) - 1, 77)]
    {
        let plant = WidePlant::new(1).metered(0, 1, weight, 5 - d).metered_within(1, 0, 1, 0, 5, 5);
        let (bottom, top) = (weight as i64 * (2 * d - 1), weight as i64 * (2 * d + 1));
        let found = [bottom - 1, bottom, top, top + 1].map(|x| plant.check(&[5, 5], &[0, x]).is_ok());
        assert_eq!(found, [false, true, true, false], "weight {weight}, {d} off");
    }
}

/// A list behind its length.
fn taken<T: std::str::FromStr>(words: &mut std::str::SplitWhitespace) -> Vec<T> {
    let mut word = || words.next().unwrap();
    let length: usize = word().parse().unwrap();
    (0..length).map(|_| word().parse().ok().expect("a number of the slice's kind")).collect()
}

/// The committed cases of the reference: reference/flows.cases.
#[test]
fn committed_cases() {
    let text = include_str!("../../../../reference/flows.cases");
    let mut tried = 0;
    for line in text.lines().filter(|line| !line.starts_with('#')) {
        let words = &mut line.split_whitespace();
        let mut first = || words.next().unwrap().parse::<u64>().unwrap();
        let (number, units, count) = (first() as u8, first() as u8, first() as usize);
        let (from, to, metered): (Vec<u8>, Vec<u8>, Vec<u8>) = (taken(words), taken(words), taken(words));
        let (weight, reading, ranged): (Vec<u64>, Vec<i64>, Vec<u8>) = (taken(words), taken(words), taken(words));
        let [low, high, flow, numbers]: [Vec<i64>; 4] = [(); 4].map(|()| taken(words));
        let parts = WideParts {
            units,
            count,
            from: &from,
            to: &to,
            metered: &metered,
            weight: &weight,
            reading: &reading,
            ranged: &ranged,
            low: &low,
            high: &high,
        };
        assert_eq!(raw::check_flow(parts, &flow, &numbers), number, "{line}");
        tried += 1;
    }
    println!("the check of a flow: {tried} committed cases");
    assert!(tried > 400);
}
