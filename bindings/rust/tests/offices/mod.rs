// SPDX-License-Identifier: LicenseRef-Wengeludo
//! Sheet calls by several offices, one after the other, accepted and refused, each handed the last numbers that the one before gave
//! back. Some sequences begin with sheets of the time before there were offices, under one counter.
//!
//! Each call is compared with the reference, by the archive's call and by [`Offices`]. Afterwards each office's last number is what it
//! was plus how many of its own sheets were drawn, and the numbers that are read from its sheets go on from there, none twice and
//! none left out.

use crate::draw::{Call, Draw};
use crate::reference::{sheet_bytes, Kept};
use crate::{agree::Subject, engine, sheet_difference, shrink};
use wengeludo_balance::{Offices, Sheet, OFFICES};

/// The last numbers at the beginning, how many plain sheets office 0's goes on with, and the calls; what last numbers they have makes
/// no difference.
#[derive(Clone, Debug)]
struct Sequence {
    start: [u32; OFFICES],
    plain: u32,
    calls: Vec<Call>,
}

/// What came of the calls: how many sheets each office drew, how many calls were refused.
#[derive(Default)]
struct Drawn {
    sheets: [u64; OFFICES],
    refused: u64,
}

/// A sheet of the time before there were offices.
fn plain_sheet(number: u32) -> Vec<u8> {
    sheet_bytes(&Kept { streams: vec![(0x14, 0)], kind: 0x1F, number, verdict: 2, ..Kept::default() })
}

/// One call, by [`Offices`]: as the archive's call answers, and the same last numbers.
fn drawn(offices: &mut Offices, call: &Call, returned: u8) -> Result<(), String> {
    let mut slice = call.slice.clone();
    let found = offices.draw_into(call.office, &call.file, &mut slice).map_or_else(|refusal| refusal.number(), |_| 0);
    if found == returned {
        Ok(())
    } else {
        Err(format!("Offices::draw_into gave {found}, the archive's call {returned}"))
    }
}

/// The numbers on the sheets of an office, in their order.
fn numbers(office: usize, sheets: &[Vec<u8>]) -> Result<Vec<u64>, String> {
    let read: Result<Vec<Sheet>, _> = sheets.iter().map(|bytes| Sheet::from_bytes(bytes)).collect();
    let of_office = read.map_err(|refusal| refusal.to_string())?.into_iter().filter(|sheet| usize::from(sheet.office) == office);
    Ok(of_office.map(|sheet| sheet.number.into()).collect())
}

fn difference(s: &Sequence) -> Result<Drawn, String> {
    let mut sheets: Vec<Vec<u8>> = (1..=s.plain).map(|k| plain_sheet(s.start[0] + k)).collect();
    let mut lasts = s.start;
    lasts[0] += s.plain;
    let mut offices = if s.start[1..] == [0; 7] { Offices::from_last(lasts[0]) } else { Offices::from_lasts(lasts) };
    let mut counts = Drawn::default();
    for call in &s.calls {
        let call = Call { lasts: offices.lasts().to_vec(), ..call.clone() };
        sheet_difference(&engine, &call)?;
        let outcome = engine(&call)?;
        drawn(&mut offices, &call, outcome.returned)?;
        if offices.lasts()[..] != outcome.lasts {
            return Err(format!("Offices has {:?}, the archive's call {:?}", offices.lasts(), outcome.lasts));
        }
        if outcome.returned == 0 {
            counts.sheets[usize::from(call.office)] += 1;
            sheets.push(outcome.slice[..outcome.written].to_vec());
        } else {
            counts.refused += 1;
        }
    }
    for office in 0..OFFICES {
        let end = u64::from(offices.lasts()[office]);
        if end != u64::from(lasts[office]) + counts.sheets[office] {
            return Err(format!("office {office} ends at {end}, after {} sheets from {}", counts.sheets[office], lasts[office]));
        }
        if numbers(office, &sheets)? != (u64::from(s.start[office]) + 1..=end).collect::<Vec<_>>() {
            return Err(format!("the numbers of office {office} do not follow on"));
        }
    }
    Ok(counts)
}

/// A few files, and calls on them by offices of which some come often.
fn sequence(draw: &mut Draw) -> Sequence {
    let files: Vec<Vec<u8>> = (0..3).map(|_| draw.call().file).collect();
    let favourites = [draw.office(), draw.office()];
    let calls = (0..1 + draw.below(40))
        .map(|_| {
            let call = draw.call();
            let office = if draw.below(2) == 0 { favourites[draw.below(2)] } else { call.office };
            Call { file: if draw.below(8) == 0 { call.file } else { files[draw.below(3)].clone() }, office, ..call }
        })
        .collect();
    let mut start = [0; OFFICES];
    if draw.below(2) == 0 {
        start.iter_mut().for_each(|last| *last = draw.last());
    } else {
        start[0] = draw.last();
    }
    let plain = draw.below(10).min((u32::MAX - start[0]) as usize) as u32;
    Sequence { start, plain, calls }
}

/// Without a call, without the sheets before the change, or with simpler last numbers.
fn simpler(s: &Sequence) -> Vec<Sequence> {
    let mut all = Vec::new();
    if s.start != [0; OFFICES] {
        all.push(Sequence { start: [0; OFFICES], ..s.clone() });
    }
    if s.plain > 0 {
        all.push(Sequence { plain: 0, ..s.clone() });
    }
    for k in 0..s.calls.len() {
        let mut fewer = s.clone();
        fewer.calls.remove(k);
        all.push(fewer);
        all.extend(shrink::simpler_calls(&s.calls[k]).into_iter().map(|call| {
            let mut other = s.clone();
            other.calls[k] = call;
            other
        }));
    }
    all
}

#[test]
fn offices_in_sequence() {
    let tally = Subject {
        name: "offices in sequence",
        drawn: sequence,
        difference,
        simpler,
        shown: |s| format!("{s:?}"),
        note: |counts, drawn| {
            (0..OFFICES).for_each(|office| counts.add(office, drawn.sheets[office]));
            counts.add(OFFICES, drawn.refused);
        },
        places: OFFICES + 1,
        one_for: 20,
    }
    .agree();
    let sheets: Vec<u64> = (0..OFFICES).map(|office| tally.count(office)).collect();
    println!("sheets by office: {sheets:?}, refused: {}", tally.count(OFFICES));
    tally.all_met(&(0..=OFFICES).collect::<Vec<usize>>(), 0, OFFICES);
}
