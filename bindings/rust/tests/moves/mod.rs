// SPDX-License-Identifier: LicenseRef-Wengeludo
//! The moves against a reference over bytes: drawn plants and damaged files, there and home, the trip, and sheets before and
//! after.
//!
//! The engine reads a plant and writes it anew; the reference here rewrites the records of the file where they stand.

use crate::draw::{Call, Draw};
use crate::reference::{read, Outcome};
use crate::{agree::Subject, compare, engine, guarded, shrink};
use wengeludo_balance::raw;

/// -2,000,000,000 to 2,000,000,000.
const WIDEST: [u8; 8] = [0x88, 0xCA, 0x6C, 0x00, 0x77, 0x35, 0x94, 0x00];

/// The file in the ranged form, or home.
fn moved(file: &[u8], forth: bool) -> Result<Vec<u8>, u8> {
    read(file)?;
    let mut out = Vec::new();
    let mut at = 0;
    while at < file.len() {
        let size = match file[at] {
            2 => 9,
            3 => 3,
            6 => 17,
            _ => 2,
        };
        let record = &file[at..at + size];
        match (record[0], forth) {
            (2, true) => out.extend([&[6], &record[1..], &WIDEST].concat()),
            (6, false) if record[9..] != WIDEST => return Err(20),
            (6, false) => out.extend([&[2], &record[1..9]].concat()),
            _ => out.extend(record),
        }
        at += size;
    }
    Ok(out)
}

fn expected(call: &Call, forth: bool) -> Outcome {
    let mut outcome = Outcome { returned: 1, written: 0, lasts: Vec::new(), slice: call.slice.clone(), marked: 0 };
    if call.slice.len() >= 1636 {
        match moved(&call.file, forth) {
            Err(number) => outcome.returned = number,
            Ok(file) => {
                outcome.returned = 0;
                outcome.written = file.len();
                outcome.slice[..file.len()].copy_from_slice(&file);
            }
        }
    }
    outcome
}

fn found(call: &Call, forth: bool) -> Result<Outcome, String> {
    let file = call.file.clone();
    let outcome = guarded(&call.slice, |out, written| {
        let move_it = if forth { raw::to_ranged } else { raw::from_ranged };
        (move_it(&file, out, written), Vec::new(), 0)
    });
    if file != call.file {
        return Err("the file changed".into());
    }
    outcome
}

/// A file without ranges, there and home, is the file itself, and its sheet is the same in the ranged form.
fn trip(call: &Call) -> Result<(), String> {
    let plant = match read(&call.file) {
        Ok(plant) => plant,
        Err(_) => return Ok(()),
    };
    if plant.streams.iter().any(|s| s.limits().is_some()) {
        return Ok(());
    }
    let there = wengeludo_balance::to_ranged(&call.file).map_err(|r| r.to_string())?;
    if wengeludo_balance::from_ranged(&there).map_err(|r| r.to_string())? != call.file {
        return Err("not the file itself after the trip".into());
    }
    let slice = vec![0xA5; 880];
    let before = engine(&Call { slice: slice.clone(), ..call.clone() })?;
    let after = engine(&Call { file: there, slice, ..call.clone() })?;
    compare(Ok(after), &before)
}

fn difference(call: &Call) -> Result<[u8; 2], String> {
    let mut returned = [0; 2];
    for (k, forth) in [true, false].into_iter().enumerate() {
        let told = expected(call, forth);
        compare(found(call, forth), &told).map_err(|d| format!("{}: {d}", if forth { "there" } else { "home" }))?;
        returned[k] = told.returned;
    }
    trip(call)?;
    Ok(returned)
}

/// A call: a drawn file, often in the ranged form already, and a slice about as long as it must be.
fn drawn(draw: &mut Draw) -> Call {
    let mut call = draw.call();
    if draw.below(3) == 0 {
        if let Ok(file) = moved(&call.file, true) {
            call.file = file;
        }
    }
    let length = match draw.below(20) {
        0 => 1635,
        1 => draw.below(1636),
        2..=5 => 1636 + draw.below(100),
        _ => 1636,
    };
    call.slice = draw.bytes(length);
    call
}

/// Outcomes of the way home are counted behind those of the way there.
const HOME: usize = 21;

#[test]
fn moves_and_reference_agree() {
    let tally = Subject {
        name: "the moves",
        drawn,
        difference,
        simpler: shrink::simpler_calls,
        shown: |call| call.to_string(),
        note: |counts, returned| {
            counts.one(returned[0]);
            counts.one(HOME + usize::from(returned[1]));
        },
        places: 2 * HOME,
        one_for: 1,
    }
    .agree();
    for (name, at) in [("there", 0), ("home", HOME)] {
        println!("{name}: {} files; refusals {}", tally.count(at), tally.listed((1..HOME).map(|i| (i, at + i))));
    }
    let refusals: Vec<usize> = (0..=12).filter(|&i| i != 2).chain([18]).collect();
    tally.all_met(&refusals, 0, HOME - 1);
    let home: Vec<usize> = refusals.iter().chain([&20]).map(|i| HOME + i).collect();
    tally.all_met(&home, HOME, 2 * HOME - 1);
}

/// The proved examples of mixed plants: another sheet, and none.
#[test]
fn mixed_plants() {
    let other = wengeludo_balance::Plant::new(1)
        .metered_within(0, 1, 1, 0, 2_000_000_000, 2_000_000_000)
        .metered(0, 1, 1000, 3_001_000)
        .metered(1, 0, 1, 0)
        .file()
        .unwrap();
    let listing = |file: &[u8]| wengeludo_balance::Offices::default().draw(0, file).map(|sheet| sheet.to_string());
    let there = |file: &[u8]| wengeludo_balance::to_ranged(file).unwrap();
    let before = "1 A 2000000000\n2 A 1000000\n3 A 2001000000\ntotal 1 8008005001000000000 1 fail\n";
    let after = "1 A 2000000000\n2 A 0\n3 A 2000000000\ntotal 1 8009006001000000000 1 fail\n";
    assert_eq!(listing(&other), Ok(before.into()));
    assert_eq!(listing(&there(&other)), Ok(after.into()));
    let full = wengeludo_balance::Plant::new(1)
        .metered_within(0, 1, 1, 0, 1_200_000_000, 2_000_000_000)
        .metered_within(0, 1, 1, 0, 1_200_000_000, 2_000_000_000)
        .metered(1, 0, 1, 0)
        .file()
        .unwrap();
    assert!(listing(&full).is_ok());
    assert_eq!(listing(&there(&full)).unwrap_err().number(), 19);
    assert_eq!(wengeludo_balance::from_ranged(&full).unwrap_err().number(), 20);
}
