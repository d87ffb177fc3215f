// SPDX-License-Identifier: LicenseRef-Wengeludo
//! Meters worth a visit against the reference: plants as for the sheet call, some with a meter or two far off, damaged files; slices
//! around 96 elements.
//!
//! A list takes the reference as many solves as there are A streams, so there is one input for ten of the sheet call.

use crate::agree::{Counts, Subject};
use crate::draw::{Call, Draw};
use crate::reference::{self, file_of, read, Listed};
use crate::shrink;
use wengeludo_balance::{raw, Visit, WidePlant};

const GUARD: usize = 64;

/// A call: the plant file and the two slices.
#[derive(Clone, Debug, PartialEq, Eq)]
struct Visits {
    file: Vec<u8>,
    streams: Vec<u8>,
    costs: Vec<u64>,
}

/// What the call returns and leaves behind.
#[derive(Debug, PartialEq, Eq)]
struct Answer {
    returned: u8,
    count: usize,
    streams: Vec<u8>,
    costs: Vec<u64>,
}

fn expected(call: &Visits) -> Answer {
    let short = call.streams.len() < 96 || call.costs.len() < 96;
    let list = if short { Err(1) } else { read(&call.file).and_then(|plant| reference::visits(&plant).ok_or(19)) };
    let (returned, list) = match list {
        Err(number) => (number, Vec::new()),
        Ok(list) => (0, list),
    };
    let (mut streams, mut costs) = (call.streams.clone(), call.costs.clone());
    for (k, (stream, cost)) in list.iter().enumerate() {
        (streams[k], costs[k]) = (*stream, *cost);
    }
    Answer { returned, count: list.len(), streams, costs }
}

/// The engine's answer, guard elements round the slices.
fn found(call: &Visits) -> Result<Answer, String> {
    let file = call.file.clone();
    let (byte_guard, word_guard) = ([0xC3; GUARD], [0x1234_5678_9ABC_DEF0; GUARD]);
    let mut streams = [&byte_guard[..], &call.streams, &byte_guard].concat();
    let mut costs = [&word_guard[..], &call.costs, &word_guard].concat();
    let (streams_end, costs_end) = (GUARD + call.streams.len(), GUARD + call.costs.len());
    let mut count = 0xDEAD_BEEF;
    let returned = raw::visits(&file, &mut streams[GUARD..streams_end], &mut costs[GUARD..costs_end], &mut count);
    if streams[..GUARD] != byte_guard || streams[streams_end..] != byte_guard {
        return Err("a guard of the numbers changed".into());
    }
    if costs[..GUARD] != word_guard || costs[costs_end..] != word_guard {
        return Err("a guard of the costs changed".into());
    }
    if file != call.file {
        return Err("the file changed".into());
    }
    Ok(Answer { returned, count, streams: streams[GUARD..streams_end].to_vec(), costs: costs[GUARD..costs_end].to_vec() })
}

fn difference(call: &Visits) -> Result<Answer, String> {
    let (found, expected) = (found(call)?, expected(call));
    if found == expected {
        Ok(found)
    } else {
        Err(format!("{found:?}, expected {expected:?}"))
    }
}

/// A meter read far off, or one whose range is far off; or streams in and out that are held there, so that costs are capped.
fn far_off(draw: &mut Draw, plant: &mut Listed) {
    let meters: Vec<usize> = (0..plant.streams.len()).filter(|&k| plant.streams[k].meter.is_some()).collect();
    if meters.is_empty() {
        return;
    }
    let k = meters[draw.below(meters.len())];
    let s = &mut plant.streams[k];
    match draw.below(4) {
        0 => {
            let most = 2_000_000_000;
            let (from, to, weight) = (s.from, s.to, s.meter.map_or(1, |m| m.0));
            s.range = Some((most, most));
            let back = reference::Stream { from: to, to: from, meter: Some((weight, 0)), range: None };
            if plant.streams.len() < 96 {
                plant.streams.push(back);
            } else {
                plant.streams[(k + 1) % 96] = back;
            }
        }
        1 => s.range = Some((s.meter.map_or(0, |m| m.1), 2_000_000_000)),
        _ => s.meter = s.meter.map(|(w, r)| (w, (r + draw.between(-50_000, 50_000) as i32).clamp(-4_000_000, 4_000_000))),
    }
}

fn drawn(draw: &mut Draw) -> Visits {
    let file = if draw.below(5) == 0 {
        draw.call().file
    } else {
        let mut plant = draw.plant();
        for _ in 0..[0, 0, 1, 1, 3][draw.below(5)] {
            far_off(draw, &mut plant);
        }
        file_of(&plant)
    };
    let mut length = || match draw.below(20) {
        0 => draw.below(96),
        1..=9 => 96 + draw.below(30),
        _ => 96,
    };
    let (numbers, costs) = (length(), length());
    Visits { file, streams: draw.bytes(numbers), costs: (0..costs).map(|_| draw.bits()).collect() }
}

/// Simpler calls: a simpler file, plain slices of 96 elements.
fn simpler(call: &Visits) -> Vec<Visits> {
    let sheet = Call { file: call.file.clone(), office: 0, lasts: vec![0; 8], slice: vec![0; 880] };
    let mut all: Vec<Visits> =
        shrink::simpler_calls(&sheet).into_iter().map(|c| Visits { file: c.file, ..call.clone() }).collect();
    let plain = Visits { file: call.file.clone(), streams: vec![0; 96], costs: vec![0; 96] };
    if plain != *call {
        all.push(plain);
    }
    all
}

// Where outcomes are counted: by the number returned; then entries, those that equal the one before, and those at the cap.
const ENTRIES: usize = 20;
const EQUALS: usize = 21;
const CAPPED: usize = 22;

fn note(counts: &Counts, answer: &Answer) {
    let costs = &answer.costs[..answer.count];
    counts.one(answer.returned);
    counts.add(ENTRIES, costs.len() as u64);
    counts.add(EQUALS, costs.windows(2).filter(|pair| pair[0] == pair[1]).count() as u64);
    counts.add(CAPPED, costs.iter().filter(|cost| **cost == u64::MAX).count() as u64);
}

#[test]
fn visits_and_reference_agree() {
    let tally = Subject {
        name: "meters worth a visit",
        drawn,
        difference,
        simpler,
        shown: |call| Call { file: call.file.clone(), office: 0, lasts: Vec::new(), slice: Vec::new() }.to_string(),
        note,
        places: CAPPED + 1,
        one_for: 10,
    }
    .agree();
    let count = |i| tally.count(i);
    println!("lists: {}; refusals {}", count(0), tally.refusals(1, 19));
    println!("entries: {}, as dear as the one before: {}, at the cap: {}", count(ENTRIES), count(EQUALS), count(CAPPED));
    tally.all_met(&[0, 1, 3, 4, 5, 6, 7, 8, 9, 10, 11, 12, 18, 19, ENTRIES, EQUALS, CAPPED], 0, 19);
}

/// The sample: the meter that is off stands first, and without it the sheet passes at the cost that the list has.
#[test]
fn the_site_with_a_meter_far_off() {
    let sample = |name: &str| std::fs::read(format!("{}/../../samples/{name}", env!("CARGO_MANIFEST_DIR"))).unwrap();
    let file = sample("far_off_site.bin");
    let list = wengeludo_balance::visits(&file).unwrap();
    let text: String = list.iter().map(|visit| format!("{} {}\n", visit.stream, visit.cost)).collect();
    assert_eq!(text.as_bytes(), sample("far_off_site.visits"));
    assert_eq!(list[0], Visit { stream: 10, cost: 2844 });
    let mut plant = read(&file).unwrap();
    plant.streams[9].meter = None;
    let sheet = wengeludo_balance::Offices::default().draw(0, &file_of(&plant)).unwrap();
    assert_eq!((sheet.cost, sheet.verdict), (2844, wengeludo_balance::Verdict::Pass));
}

/// A published serial system, in tenths: the fourth meter is the one that is off.
#[test]
fn the_serial_system() {
    let streams = [(0, 1, 105), (1, 2, 145), (2, 1, 55), (0, 2, 140), (2, 3, 195), (3, 0, 205)];
    let plant =
        streams.into_iter().fold(wengeludo_balance::Plant::new(3), |p, (from, to, reading)| p.metered(from, to, 10, reading));
    let list = wengeludo_balance::visits(&plant.file().unwrap()).unwrap();
    assert_eq!(list[0], Visit { stream: 4, cost: 1250 });
}

/// The deepest calls in a thread with little more stack than the header speaks of, 72 KB; what the thread itself needs is in the rest.
#[test]
fn little_stack() {
    let bench = concat!(env!("CARGO_MANIFEST_DIR"), "/../../bench");
    let worst =
        ["worst.bin", "worst_ranges.bin", "most_improvements.bin"].map(|name| std::fs::read(format!("{bench}/{name}")).unwrap());
    let mut drawn: Vec<Vec<u8>> = (0..300).map(|k| file_of(&Draw::new(k).plant())).collect();
    drawn.extend(worst);
    let calls = move || {
        for file in &drawn {
            let (mut streams, mut costs, mut count) = (vec![0; 96], vec![0; 96], 0);
            raw::visits(file, &mut streams, &mut costs, &mut count);
            let charged = read(file).map_or(0, |plant| plant.streams.iter().filter(|s| s.to == 0).count());
            let (mut cents, mut bill) = (vec![0; 96], 0);
            raw::charges(file, &vec![1; charged], &mut streams, &mut cents, &mut count, &mut bill);
            let (mut sheet, mut lasts, mut marked) = (vec![0; 880], [0; 8], 0);
            raw::balance_plant(file, 7, &mut lasts, &mut sheet, &mut count, &mut marked);
            let (mut numbers, mut places) = (vec![0; 33], 0);
            raw::place_numbers(file, &mut numbers, &mut places);
            raw::check_sheet(file, &sheet[..count], &numbers[..places]);
            let ring = (0..96).fold(WidePlant::new(32), |plant, k| plant.metered(k % 33, (k + 1) % 33, 1 << 40, 1 << 40));
            let _ = ring.check(&[1 << 40; 96], &[0; 33]);
        }
    };
    std::thread::Builder::new().stack_size(76 * 1024).spawn(calls).unwrap().join().unwrap();
}
