// SPDX-License-Identifier: LicenseRef-Wengeludo
//! Sheets drawn up elsewhere: the check and numbers of the places against the rules in exact numbers.
//!
//! The sheets are the reference's, others of the same cost (those of the plant with all flows turned round), and both with something
//! changed. The numbers are the engine's, or distances over the streams that can carry one more or one less (Bellman and Ford).

use crate::draw::Draw;
use crate::reference::{file_of, read, reopen, sheet_bytes, sheet_of, Kept, Listed, Stream};
use crate::{agree::Subject, shrink, GUARD};
use wengeludo_balance::raw;

const LIMIT: i64 = 1_000_000_000_000_000_000;
const PLACES: usize = 33;

/// A call of the check.
#[derive(Clone, Debug, PartialEq, Eq)]
struct Check {
    plant: Vec<u8>,
    sheet: Vec<u8>,
    numbers: Vec<i64>,
}

/// What our sheet shows; none where no balanced flow is in range.
fn ours(plant: &Listed) -> Option<Kept> {
    sheet_of(plant, 0, 1).ok().map(|sheet| reopen(&sheet).unwrap())
}

/// The plant with all flows turned round, and so a sheet of it turned back: another flow of least cost, where there are several.
fn turned(plant: &Listed) -> Listed {
    let turn = |s: &Stream| Stream {
        meter: s.meter.map(|(weight, reading)| (weight, -reading)),
        range: s.range.map(|(low, high)| (-high, -low)),
        ..s.clone()
    };
    Listed { units: plant.units, streams: plant.streams.iter().map(turn).collect() }
}

fn other(plant: &Listed) -> Option<Kept> {
    let mut kept = ours(&turned(plant))?;
    kept.streams.iter_mut().for_each(|(_, flow)| *flow = -*flow);
    Some(kept)
}

/// The bounds of the difference of the numbers at a stream's ends, where they are asked.
fn bounds(s: &Stream, flow: i64) -> (Option<i128>, Option<i128>) {
    let (weight, reading) = match s.meter {
        Some(meter) => meter,
        None => return (Some(0), Some(0)),
    };
    let d = i128::from(flow) - i128::from(reading);
    let (low, high) = s.limits().map_or((None, None), |(low, high)| (Some(low), Some(high)));
    let bound = |end: Option<i64>, one: i128| (end != Some(flow)).then_some(i128::from(weight) * (2 * d + one));
    (bound(low, -1), bound(high, 1))
}

/// The rules, one after the other.
fn passes(plant: &Listed, kept: &Kept, numbers: &[i64]) -> bool {
    let ours = match ours(plant) {
        Some(ours) => ours,
        None => return false,
    };
    let kinds = |kept: &Kept| kept.streams.iter().map(|(kind, _)| *kind).collect::<Vec<u8>>();
    if numbers.len() != usize::from(plant.units) + 1 || numbers.iter().any(|x| !(-LIMIT..=LIMIT).contains(x)) {
        return false;
    }
    if kinds(kept) != kinds(&ours) || (kept.degrees, kept.cost, kept.verdict) != (ours.degrees, ours.cost, ours.verdict) {
        return false;
    }
    let mut sets: Vec<usize> = (0..numbers.len()).collect();
    for (s, (kind, flow)) in plant.streams.iter().zip(&kept.streams) {
        let difference = i128::from(numbers[s.to]) - i128::from(numbers[s.from]);
        let (bottom, top) = bounds(s, *flow);
        if bottom.map_or(false, |b| difference < b) || top.map_or(false, |t| difference > t) {
            return false;
        }
        if s.limits().map_or(false, |(low, high)| !(low..=high).contains(flow)) {
            return false;
        }
        if *kind == 0x14 {
            let (one, gone) = (sets[s.from], sets[s.to]);
            sets.iter_mut().filter(|x| **x == gone).for_each(|x| *x = one);
        }
    }
    let mut nets = vec![0_i128; numbers.len()];
    for (s, (_, flow)) in plant.streams.iter().zip(&kept.streams).filter(|(_, (kind, _))| *kind != 0x14) {
        nets[sets[s.to]] += i128::from(*flow);
        nets[sets[s.from]] -= i128::from(*flow);
    }
    nets.iter().all(|net| *net == 0)
}

fn expected(call: &Check) -> u8 {
    let plant = match read(&call.plant) {
        Err(number) => return number,
        Ok(plant) => plant,
    };
    match reopen(&call.sheet) {
        Err(number) => number,
        Ok(kept) if passes(&plant, &kept, &call.numbers) => 0,
        Ok(_) => 26,
    }
}

fn difference(call: &Check) -> Result<u8, String> {
    let kept = call.clone();
    let (found, expected) = (raw::check_sheet(&call.plant, &call.sheet, &call.numbers), expected(call));
    if *call != kept {
        Err("what was handed in changed".into())
    } else if found == expected {
        Ok(found)
    } else {
        Err(format!("returned {found}, expected {expected}"))
    }
}

/// Distances over the streams that can carry one more or one less.
fn distances(plant: &Listed, kept: &Kept) -> Vec<i64> {
    let mut numbers = vec![0_i128; usize::from(plant.units) + 1];
    loop {
        let before = numbers.clone();
        for (s, (_, flow)) in plant.streams.iter().zip(&kept.streams) {
            let (bottom, top) = bounds(s, *flow);
            if let Some(top) = top {
                numbers[s.to] = numbers[s.to].min(numbers[s.from] + top);
            }
            if let Some(bottom) = bottom {
                numbers[s.from] = numbers[s.from].min(numbers[s.to] - bottom);
            }
        }
        if numbers == before {
            return numbers.into_iter().map(|x| x.try_into().unwrap()).collect();
        }
    }
}

/// The engine's numbers, on a slice with guards round it; or a refusal that leaves the slice alone.
fn engine_numbers(file: &[u8], room: usize) -> Result<Result<Vec<i64>, u8>, String> {
    let (guard, filling) = ([-0x1234_5678_9ABC; GUARD], vec![0x0F0F_0F0F; room]);
    let mut memory = [&guard[..], &filling, &guard].concat();
    let mut count = 77;
    let returned = raw::place_numbers(file, &mut memory[GUARD..GUARD + room], &mut count);
    let numbers = memory[GUARD..GUARD + room.min(count)].to_vec();
    if memory != [&guard[..], &numbers, &filling[numbers.len()..], &guard].concat() {
        return Err("an element past the numbers changed".into());
    }
    match (returned, count) {
        (0, _) => Ok(Ok(numbers)),
        (_, 0) => Ok(Err(returned)),
        _ => Err(format!("{count} numbers with refusal {returned}")),
    }
}

/// Numbers of a file: the refusal that must be, or numbers with which our sheet and another of its cost pass.
fn numbers_difference(file: &[u8], room: usize) -> Result<u8, String> {
    let found = engine_numbers(file, room)?;
    let wanted = if room < PLACES { Err(1) } else { read(file) };
    match (found, wanted) {
        (Err(found), Err(wanted)) if found == wanted => Ok(found),
        (Err(19), Ok(plant)) if ours(&plant).is_none() => Ok(19),
        (Ok(numbers), Ok(plant)) => {
            let shown = [ours(&plant), other(&plant)].map(|kept| kept.ok_or("numbers of a plant without a sheet"));
            for kept in shown {
                if !passes(&plant, &kept?, &numbers) {
                    return Err(format!("{numbers:?} do not pass"));
                }
            }
            if numbers[0] == 0 {
                Ok(0)
            } else {
                Err(format!("the outside has {}", numbers[0]))
            }
        }
        (found, wanted) => Err(format!("{found:?}, expected {wanted:?}")),
    }
}

/// One thing on the sheet, or among the numbers, changed.
fn damage(draw: &mut Draw, kept: &mut Kept, numbers: &mut Vec<i64>) {
    let (streams, places) = (kept.streams.len().max(1), numbers.len().max(1));
    let (k, u) = (draw.below(streams), draw.below(places));
    match draw.below(12) {
        0..=3 => {
            if let Some((_, flow)) = kept.streams.get_mut(k).filter(|(kind, _)| *kind != 0x14) {
                let by = [1, -1, 2, 1000, 1 << 46, 1 << 59, 1 << 62, i64::MIN][draw.below(8)];
                *flow = flow.wrapping_add(by);
            }
        }
        4..=6 => {
            if let Some(x) = numbers.get_mut(u) {
                let by = [1, -1, 5, -1000, LIMIT, i64::MIN][draw.below(6)];
                *x = x.wrapping_add(by);
            }
        }
        7 => kept.cost = kept.cost.wrapping_add([1, u64::MAX][draw.below(2)]),
        8 => kept.verdict = [0, 1, 3][draw.below(3)],
        9 => kept.degrees = kept.degrees.wrapping_add(1),
        10 => match draw.below(3) {
            0 => numbers.push(0),
            1 => drop(numbers.pop()),
            _ => kept.streams.push((0x14, 0)),
        },
        _ => {
            if let Some(record) = kept.streams.get_mut(k) {
                *record = if draw.below(3) == 0 { (0x14, 0) } else { (0x11 + draw.below(3) as u8, record.1) };
            }
        }
    }
}

fn drawn(draw: &mut Draw) -> Check {
    let plant = draw.plant();
    let mut file = file_of(&plant);
    let (mut kept, mut numbers) = match (ours(&plant), other(&plant)) {
        (Some(ours), Some(other)) => {
            let numbers =
                if draw.below(2) == 0 { distances(&plant, &ours) } else { engine_numbers(&file, PLACES).unwrap().unwrap() };
            (if draw.below(2) == 0 { ours } else { other }, numbers)
        }
        _ => {
            let streams = plant.streams.iter().map(|_| (0x11 + draw.below(4) as u8, 0)).collect();
            let kept = Kept { streams, kind: 0x1E, number: 1, degrees: 1, ..Kept::default() };
            (kept, vec![0; usize::from(plant.units) + 1])
        }
    };
    // What is free.
    (kept.kind, kept.office) = if draw.below(3) == 0 { (0x1F, 0) } else { (0x1E, draw.below(8) as u8) };
    kept.number = 1 + draw.below(1 << 20) as u32;
    let by = if draw.below(4) == 0 { draw.between(-LIMIT / 2, LIMIT / 2) } else { 0 };
    numbers.iter_mut().for_each(|x| *x += by);
    for _ in 0..[0, 1, 1, 2][draw.below(4)] {
        damage(draw, &mut kept, &mut numbers);
    }
    let mut sheet = sheet_bytes(&kept);
    match draw.below(20) {
        0 => sheet = draw.reopen().bytes,
        1 => file = draw.call().file,
        _ => {}
    }
    Check { plant: file, sheet, numbers }
}

/// Simpler calls: without a stream and its record, the total as it is or made ours, with a number made 0, with a plain total.
fn simpler(call: &Check) -> Vec<Check> {
    let mut all = Vec::new();
    if let (Ok(plant), Ok(kept)) = (read(&call.plant), reopen(&call.sheet)) {
        for k in 0..plant.streams.len().min(kept.streams.len()) {
            let (mut streams, mut records) = (plant.streams.clone(), kept.streams.clone());
            streams.remove(k);
            records.remove(k);
            let (less, left) = (Listed { units: plant.units, streams }, Kept { streams: records, ..kept.clone() });
            if let Some(Kept { cost, degrees, verdict, .. }) = ours(&less) {
                let sheet = sheet_bytes(&Kept { cost, degrees, verdict, ..left.clone() });
                all.push(Check { plant: file_of(&less), sheet, ..call.clone() });
            }
            all.push(Check { plant: file_of(&less), sheet: sheet_bytes(&left), ..call.clone() });
        }
        if kept.kind != 0x1F {
            all.push(Check { sheet: sheet_bytes(&Kept { kind: 0x1F, office: 0, ..kept }), ..call.clone() });
        }
    }
    for u in (0..call.numbers.len()).filter(|&u| call.numbers[u] != 0) {
        let mut c = call.clone();
        c.numbers[u] = 0;
        all.push(c);
    }
    all
}

#[test]
fn checks_and_reference_agree() {
    let tally = Subject::by_number("the check", drawn, difference, simpler, 26).agree();
    println!("passed: {}; refusals {}", tally.count(0), tally.refusals(1, 26));
    tally.all_met(&[0, 3, 4, 5, 6, 7, 8, 9, 10, 11, 12, 13, 14, 15, 18, 26], 0, 26);
}

#[test]
fn numbers_pass() {
    let tally = Subject {
        name: "numbers of the places",
        drawn: |draw| {
            let call = draw.call();
            let room = [PLACES, PLACES, PLACES + 5, draw.below(PLACES)][draw.below(4)];
            (call, room)
        },
        difference: |(call, room)| numbers_difference(&call.file, *room),
        simpler: |(call, room)| shrink::simpler_calls(call).into_iter().map(|simpler| (simpler, *room)).collect(),
        shown: |(call, room)| format!("slice of {room} numbers; {call}"),
        note: |counts, returned| counts.one(*returned),
        places: 27,
        one_for: 1,
    }
    .agree();
    println!("numbers: {}; refusals {}", tally.count(0), tally.refusals(1, 26));
    tally.all_met(&[0, 1, 3, 4, 5, 6, 7, 8, 9, 10, 11, 12, 18, 19], 0, 26);
}

/// The same numbers pass 101 and 102, whose cost is the same; and a flow at high excuses the top.
#[test]
fn sheets_to_try() {
    let m = |from, to, reading| Stream { from, to, meter: Some((10, reading)), range: None };
    let tie = Listed { units: 1, streams: vec![m(0, 1, 100), m(1, 0, 103)] };
    let with = |plant: &Listed, flows: &[i64], cost, numbers: &[i64]| {
        let streams = flows.iter().map(|flow| (0x11, *flow)).collect();
        let kept = Kept { streams, kind: 0x1E, office: 7, number: 9, cost, degrees: 1, verdict: 0 };
        let call = Check { plant: file_of(plant), sheet: sheet_bytes(&kept), numbers: numbers.to_vec() };
        difference(&call).unwrap()
    };
    assert_eq!([101, 102, 100, 103].map(|x| with(&tie, &[x, x], 50, &[0, 30])), [0, 0, 26, 26]);
    let high = Listed { units: 1, streams: vec![Stream { range: Some((0, 100)), ..m(0, 1, 103) }, m(1, 0, 60), m(1, 0, 40)] };
    assert_eq!([-11, -10, 0, 10, 11].map(|x| with(&high, &[100, 60, 40], 90, &[0, x])), [26, 0, 0, 0, 26]);
    // Flows of 2^59 on 32 parallel streams pass every rule in 64 bits that wrap.
    let wide = Listed { units: 1, streams: vec![Stream { meter: Some((16, 0)), ..m(0, 1, 0) }; 32] };
    assert_eq!(with(&wide, &[1 << 59; 32], u64::MAX, &[0, 0]), 26);
}
