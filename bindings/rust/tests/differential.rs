// SPDX-License-Identifier: LicenseRef-Wengeludo
//! The engine against the reference: drawn plants, damaged files, edges of the call, parts for the writer, kept and damaged sheets.
//!
//! On each input: the returned number, every byte of the slice with guard bytes round it, all last sheet numbers that are lent with
//! guard numbers round them, `written`; the marked places of a refusal 19 are tested, and no other call marks one.
//! The loop, with its variables, stands in `agree`; the other calls have modules of their own.

mod agree;
mod charges;
mod draw;
mod foreign;
mod layouts;
mod moves;
mod offices;
mod parts;
mod purchases;
mod reference;
mod shrink;
mod transmitters;
mod visits;
mod wide;

use agree::{Counts, Subject};
use draw::{Call, Draw, Reopen, Write};
use reference::{overfull, read, Outcome, Stream};
use wengeludo_balance::raw::{self, Parts, Total};

const GUARD: usize = 64;

/// The refusals of the sheet call.
const REFUSALS: [usize; 15] = [1, 2, 3, 4, 5, 6, 7, 8, 9, 10, 11, 12, 18, 19, 22];

// Where outcomes are counted: those of the sheet call by their number, the writer's calls, those of the sheet reader by theirs,
// sheets with the verdict close, which are counted nowhere else.
const WRITER: usize = 23;
const READER: usize = 24;
const CLOSE: usize = READER + 16;
const OUTCOMES: usize = CLOSE + 1;

/// Runs a call on a slice with guard bytes round it; the outcome has the slice's bytes, and the guards are compared here.
fn guarded(slice: &[u8], call: impl FnOnce(&mut [u8], &mut usize) -> (u8, Vec<u32>, u64)) -> Result<Outcome, String> {
    let guard = |i: usize| (i as u8).wrapping_mul(37) ^ 0xA5;
    let mut memory: Vec<u8> = (0..GUARD).map(guard).collect();
    memory.extend(slice);
    memory.extend((0..GUARD).map(guard));
    let end = GUARD + slice.len();
    let mut written = 0xDEAD_BEEF;
    let (returned, lasts, marked) = call(&mut memory[GUARD..end], &mut written);
    for i in 0..GUARD {
        if memory[i] != guard(i) || memory[end + i] != guard(i) {
            return Err(format!("guard byte {i} changed"));
        }
    }
    Ok(Outcome { returned, written, lasts, slice: memory[GUARD..end].to_vec(), marked })
}

/// The engine's sheet call.
fn engine(call: &Call) -> Result<Outcome, String> {
    let file = call.file.clone();
    let guard = [0xC3C3_C3C3; GUARD];
    let mut memory = [&guard[..], &call.lasts, &guard].concat();
    let end = GUARD + call.lasts.len();
    let outcome = guarded(&call.slice, |sheet, written| {
        let mut marked = u64::MAX;
        let returned = raw::balance_plant(&file, call.office, &mut memory[GUARD..end], sheet, written, &mut marked);
        (returned, memory[GUARD..end].to_vec(), marked)
    })?;
    if memory[..GUARD] != guard || memory[end..] != guard {
        return Err("a number beside the last sheet numbers changed".into());
    }
    if file != call.file {
        return Err("the file changed".into());
    }
    Ok(outcome)
}

fn compare(found: Result<Outcome, String>, expected: &Outcome) -> Result<(), String> {
    let found = found?;
    if found.returned != expected.returned {
        return Err(format!("returned {}, expected {}", found.returned, expected.returned));
    }
    if found.written != expected.written {
        return Err(format!("written {}, expected {}", found.written, expected.written));
    }
    if found.lasts != expected.lasts {
        return Err(format!("last sheet numbers {:?}, expected {:?}", found.lasts, expected.lasts));
    }
    match (0..expected.slice.len()).find(|&i| found.slice[i] != expected.slice[i]) {
        Some(i) => Err(format!("byte {i} of the slice is {}, expected {}", found.slice[i], expected.slice[i])),
        None => Ok(()),
    }
}

/// The marked places of a refusal 19 must take in more than they can let out; no other call marks a place.
fn marks_right(file: &[u8], returned: u8, marked: u64) -> Result<(), String> {
    let right = match read(file) {
        Ok(plant) if returned == 19 => overfull(&plant, marked),
        _ => marked == 0,
    };
    if right {
        Ok(())
    } else {
        Err(format!("marked places {marked:#x}"))
    }
}

/// Where the outcome is counted, or the difference.
fn sheet_difference(run: &dyn Fn(&Call) -> Result<Outcome, String>, call: &Call) -> Result<usize, String> {
    let expected = reference::sheet_call(&call.file, call.office, &call.lasts, &call.slice);
    let found = run(call)?;
    let (returned, marked) = (found.returned, found.marked);
    compare(Ok(found), &expected)?;
    marks_right(&call.file, returned, marked)?;
    let close = expected.written > 0 && expected.slice[expected.written - 1] == 3;
    Ok(if close { CLOSE } else { returned.into() })
}

fn write_difference(w: &Write) -> Result<(), String> {
    let reach = w.lengths().into_iter().min().unwrap();
    let streams: Vec<Option<Stream>> = (0..w.count.min(96))
        .map(|k| {
            (k < reach).then(|| Stream {
                from: w.from[k].into(),
                to: w.to[k].into(),
                meter: (w.metered[k] != 0).then(|| (w.weight[k], w.reading[k])),
                range: (w.ranged[k] != 0).then(|| (w.low[k], w.high[k])),
            })
        })
        .collect();
    let mut expected = Outcome { returned: 0, written: 0, lasts: Vec::new(), slice: w.slice.clone(), marked: 0 };
    match reference::write(w.units, w.count, &streams, &w.slice) {
        Err(number) => expected.returned = number,
        Ok(file) => {
            expected.written = file.len();
            expected.slice[..file.len()].copy_from_slice(&file);
        }
    }
    let parts = Parts {
        units: w.units,
        count: w.count,
        from: &w.from,
        to: &w.to,
        metered: &w.metered,
        weight: &w.weight,
        reading: &w.reading,
        ranged: &w.ranged,
        low: &w.low,
        high: &w.high,
    };
    compare(guarded(&w.slice, |file, written| (raw::write_plant(parts, file, written), Vec::new(), 0)), &expected)
}

/// What the sheet reader must hand over, the number first.
fn reopened(r: &Reopen) -> (u8, Total, Vec<u8>, Vec<i64>) {
    let short = r.kinds.len() < 96 || r.flows.len() < 96;
    let (number, kept) = match if short { Err(1) } else { reference::reopen(&r.bytes) } {
        Err(number) => (number, reference::Kept::default()),
        Ok(kept) => (0, kept),
    };
    let total = Total {
        count: kept.streams.len(),
        kind: kept.kind,
        office: kept.office,
        sheet: kept.number,
        cost: kept.cost,
        degrees: kept.degrees,
        verdict: kept.verdict,
    };
    let (mut kinds, mut flows) = (r.kinds.clone(), r.flows.clone());
    for (k, (kind, flow)) in kept.streams.iter().enumerate() {
        kinds[k] = *kind;
        flows[k] = *flow;
    }
    (number, total, kinds, flows)
}

/// The sheet reader on slices with guard elements round them; and a sheet that is read, written again, is the same.
fn reopen_difference(r: &Reopen) -> Result<u8, String> {
    let (number, total, kinds, flows) = reopened(r);
    let bytes = r.bytes.clone();
    let (kind_guard, flow_guard) = ([0xC3; GUARD], [-0x1234_5678_9ABC; GUARD]);
    let mut kind_memory = [&kind_guard[..], &r.kinds, &kind_guard].concat();
    let mut flow_memory = [&flow_guard[..], &r.flows, &flow_guard].concat();
    let mut found = Total { count: 77, kind: 77, office: 77, sheet: 77, cost: 77, degrees: 77, verdict: 77 };
    let returned = raw::read_sheet(
        &bytes,
        &mut kind_memory[GUARD..GUARD + r.kinds.len()],
        &mut flow_memory[GUARD..GUARD + r.flows.len()],
        &mut found,
    );
    if returned != number {
        return Err(format!("returned {returned}, expected {number}"));
    }
    if found != total {
        return Err(format!("{found:?}, expected {total:?}"));
    }
    if kind_memory != [&kind_guard[..], &kinds, &kind_guard].concat() {
        return Err("other kinds".into());
    }
    if flow_memory != [&flow_guard[..], &flows, &flow_guard].concat() {
        return Err("other flows".into());
    }
    if bytes != r.bytes {
        return Err("the sheet changed".into());
    }
    if returned == 0 {
        let streams = kinds.into_iter().zip(flows).take(found.count).collect();
        let Total { kind, office, sheet, cost, degrees, verdict, .. } = found;
        if reference::sheet_bytes(&reference::Kept { streams, kind, office, number: sheet, cost, degrees, verdict }) != bytes {
            return Err("written again it differs".into());
        }
    }
    Ok(returned)
}

/// A call of the sheet call, the writer or the reader.
enum Input {
    Sheet(Call),
    Writer(Write),
    Reader(Reopen),
}

fn drawn(draw: &mut Draw) -> Input {
    match draw.below(10) {
        0 => Input::Writer(draw.write()),
        1 => Input::Reader(draw.reopen()),
        _ => Input::Sheet(draw.call()),
    }
}

/// Where the outcome is counted, or the difference.
fn difference(input: &Input) -> Result<usize, String> {
    match input {
        Input::Sheet(call) => sheet_difference(&engine, call),
        Input::Writer(w) => write_difference(w).map(|()| WRITER),
        Input::Reader(r) => reopen_difference(r).map(|returned| READER + usize::from(returned)),
    }
}

fn simpler(input: &Input) -> Vec<Input> {
    match input {
        Input::Sheet(call) => shrink::simpler_calls(call).into_iter().map(Input::Sheet).collect(),
        Input::Writer(w) => shrink::simpler_writes(w).into_iter().map(Input::Writer).collect(),
        Input::Reader(r) => shrink::simpler_reopens(r).into_iter().map(Input::Reader).collect(),
    }
}

fn shown(input: &Input) -> String {
    match input {
        Input::Sheet(call) => format!("the sheet call: {call}"),
        Input::Writer(w) => format!("the writer: {w:?}"),
        Input::Reader(r) => format!("the sheet reader: {r:?}"),
    }
}

#[test]
fn engine_and_reference_agree() {
    let note = |counts: &Counts, place: &usize| counts.one(*place);
    let name = "sheet call, writer and sheet reader";
    let tally = Subject { name, drawn, difference, simpler, shown, note, places: OUTCOMES, one_for: 1 }.agree();
    let count = |i| tally.count(i);
    let refusals = tally.listed(REFUSALS.into_iter().map(|i| (i, i)));
    let sheets = count(0) + count(CLOSE);
    println!("sheets: {sheets}, {} of them close; refusals {refusals}; calls of the writer: {}", count(CLOSE), count(WRITER));
    let reopened = tally.listed([1, 13, 14, 15].into_iter().map(|i| (i, READER + i)));
    println!("sheets read back in: {}; refusals {reopened}", count(READER));
    let reader = [0, 1, 13, 14, 15].map(|i| READER + i);
    let all: Vec<usize> = [0, WRITER, CLOSE].into_iter().chain(REFUSALS).chain(reader).collect();
    tally.all_met(&all, 0, OUTCOMES - 1);
}

#[test]
fn plants_to_try() {
    let m = |from, to, weight, reading| Stream { from, to, meter: Some((weight, reading)), range: None };
    let within = |s: Stream, low, high| Stream { range: Some((low, high)), ..s };
    let u = |from, to| Stream { from, to, ..Stream::default() };
    let cases: Vec<(u8, Vec<Stream>, &str)> = vec![
        (1, vec![m(0, 1, 10, 103), m(1, 0, 10, 60), m(1, 0, 10, 40)], "1 A 102\n2 A 61\n3 A 41\ntotal 1 30 1 pass\n"),
        (1, vec![m(0, 1, 10, 101), m(1, 0, 10, 60), m(1, 0, 10, 40)], "1 A 100\n2 A 60\n3 A 40\ntotal 1 10 1 pass\n"),
        (1, vec![m(0, 1, 10, 100), m(1, 0, 10, 103)], "1 A 101\n2 A 101\ntotal 1 50 1 pass\n"),
        (1, vec![m(0, 1, 30, 100), m(1, 0, 10, 104)], "1 A 101\n2 A 101\ntotal 1 120 1 pass\n"),
        (1, vec![m(0, 1, 10, 100), u(1, 0)], "1 R 100\n2 G 100\ntotal 1 0 0 none\n"),
        (1, vec![m(0, 1, 10, 7)], "1 A 0\ntotal 1 490 1 pass\n"),
        (1, vec![m(0, 1, 1, 61)], "1 A 0\ntotal 1 3721 1 pass\n"),
        (1, vec![m(0, 1, 1, 62)], "1 A 0\ntotal 1 3844 1 fail\n"),
        // Close, by half a unit; and a fail beyond that.
        (1, vec![m(0, 1, 155, 100), m(1, 0, 155, 107)], "1 A 103\n2 A 103\ntotal 1 3875 1 close\n"),
        (1, vec![m(0, 1, 157, 100), m(1, 0, 157, 107)], "1 A 103\n2 A 103\ntotal 1 3925 1 fail\n"),
        (1, vec![], "total 1 0 0 none\n"),
        // An end blocks the tie, the nearest value in range is shown, a cost beyond 64 bits is capped.
        (1, vec![within(m(0, 1, 10, 100), 102, 105), m(1, 0, 10, 103)], "1 A 102\n2 A 102\ntotal 1 50 1 pass\n"),
        (1, vec![within(m(0, 1, 10, 100), -5, 7), u(1, 0)], "1 R 7\n2 G 7\ntotal 1 86490 0 none\n"),
        (
            1,
            vec![within(m(0, 1, 1000, 0), 2_000_000_000, 2_000_000_000), m(1, 0, 1000, 0)],
            "1 A 2000000000\n2 A 2000000000\ntotal 1 18446744073709551615 1 fail\n",
        ),
    ];
    for (units, streams, listing) in cases {
        let plant = reference::Listed { units, streams };
        let sheet = wengeludo_balance::Offices::default().draw(0, &reference::file_of(&plant)).unwrap();
        assert_eq!(sheet.to_string(), listing);
        let bytes = reference::sheet_of(&plant, 0, 1).unwrap();
        assert_eq!(wengeludo_balance::Sheet::from_bytes(&bytes), Ok(sheet));
    }
}

/// The shrinker at work on an engine with a fault: a cost one too high wherever three or more streams are adjusted.
#[test]
fn a_difference_is_shrunk() {
    let faulty = |call: &Call| {
        let mut outcome = reference::sheet_call(&call.file, call.office, &call.lasts, &call.slice);
        if outcome.returned == 0 {
            let sheet = wengeludo_balance::Sheet::from_bytes(&outcome.slice[..outcome.written]).unwrap();
            if sheet.records.iter().filter(|r| r.letter() == 'A').count() >= 3 {
                outcome.slice[outcome.written - 3] ^= 1;
            }
        }
        Ok(outcome)
    };
    let differs = |c: &Call| sheet_difference(&faulty, c).is_err();
    let found = (1..10_000).map(|k| Draw::new(k).call()).find(|c| differs(c)).expect("no plant shows the fault");
    let small = shrink::smallest(found, &shrink::simpler_calls, &differs);
    let plant = reference::read(&small.file).unwrap();
    assert_eq!((plant.streams.len(), plant.units), (3, 1), "not shrunk:\n{small}");
    assert!(plant.streams.iter().all(|s| s.meter == Some((1, 0)) && s.range.is_none()), "not shrunk:\n{small}");
}
