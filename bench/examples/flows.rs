// SPDX-License-Identifier: LicenseRef-Wengeludo
//! Times the check of a flow beside the sheet call, on plants in sequence:
//!
//!     flows [PLANTS [ROUNDS]]
//!
//! The flow is the sheet's own, what it withholds filled so that it balances, with the engine's numbers of the places. A plant's time is
//! the lower quartile of its rounds. Before that each flow must pass.

use std::hint::black_box;
use wengeludo_balance::raw::{self, WideParts};
use wengeludo_balance::{Sheet, MAX_PLACES, OFFICES, SHEET_SIZE};
use wengeludo_bench::plants::{draw, Kind, Plant};
use wengeludo_bench::report::SIZES;
use wengeludo_bench::sequence::in_turns;
use wengeludo_bench::summary::{median, summary};

const KINDS: [Kind; 5] = [Kind::Site, Kind::Extremes, Kind::Ties, Kind::Ranges, Kind::Pipes];
const SMALL: [(usize, usize); 3] = [(1, 0), (1, 2), (2, 6)];

/// A plant by its parts, its file, a flow and numbers.
struct Site {
    file: Vec<u8>,
    units: u8,
    ends: [Vec<u8>; 2],
    metered: Vec<u8>,
    weight: Vec<u64>,
    reading: Vec<i64>,
    ranged: Vec<u8>,
    range: [Vec<i64>; 2],
    flow: Vec<i64>,
    numbers: Vec<i64>,
}

fn sheet(file: &[u8]) -> Option<Sheet> {
    let mut sheet = [0; SHEET_SIZE];
    let (mut lasts, mut written, mut marked) = ([0; OFFICES], 0, 0);
    let number = raw::balance_plant(file, 0, &mut lasts, &mut sheet, &mut written, &mut marked);
    (number == 0).then(|| Sheet::from_bytes(&sheet[..written]).unwrap())
}

/// The sheet's flow; what it withholds is 0 where a stream closes a ring of such streams, else what is then missing at its far end.
fn filled(plant: &Plant, sheet: &Sheet) -> Vec<i64> {
    let mut flow: Vec<i64> = sheet.records.iter().map(|record| record.flow().unwrap_or(0)).collect();
    let mut trees: Vec<Vec<usize>> = (0..=plant.units).map(|place| vec![place]).collect();
    let mut over = vec![0; plant.units + 1];
    for (s, x) in plant.streams.iter().zip(&flow) {
        over[usize::from(s.to)] += x;
        over[usize::from(s.from)] -= x;
    }
    let mut joining: Vec<(usize, Vec<usize>)> = Vec::new();
    for (k, s) in plant.streams.iter().enumerate().filter(|(k, _)| sheet.records[*k].flow().is_none()) {
        let tree = |place: u8| trees.iter().position(|tree| tree.contains(&usize::from(place))).unwrap();
        let (from, to) = (tree(s.from), tree(s.to));
        if from != to {
            joining.push((k, trees[from].clone()));
            let gone = trees[from].clone();
            trees[to].extend(gone);
            trees[from].clear();
        }
    }
    for (k, behind) in joining.into_iter().rev() {
        flow[k] = behind.iter().map(|place| over[*place]).sum();
        over[usize::from(plant.streams[k].from)] -= flow[k];
        over[usize::from(plant.streams[k].to)] += flow[k];
    }
    flow
}

/// A plant that has a sheet.
fn site(plant: Plant) -> Option<Site> {
    let file = plant.file();
    let flow = filled(&plant, &sheet(&file)?);
    let (mut numbers, mut count) = ([0; MAX_PLACES], 0);
    assert_eq!(raw::place_numbers(&file, &mut numbers, &mut count), 0, "no numbers for {file:02X?}");
    let s = &plant.streams;
    let site = Site {
        units: plant.units as u8,
        ends: [s.iter().map(|s| s.from).collect(), s.iter().map(|s| s.to).collect()],
        metered: s.iter().map(|s| s.metered.into()).collect(),
        weight: s.iter().map(|s| s.weight as u64).collect(),
        reading: s.iter().map(|s| s.reading).collect(),
        ranged: s.iter().map(|s| s.ranged.into()).collect(),
        range: [s.iter().map(|s| s.low).collect(), s.iter().map(|s| s.high).collect()],
        flow,
        numbers: numbers[..count].to_vec(),
        file,
    };
    assert_eq!(checked(&site), 0, "the flow does not pass, of {:02X?}", site.file);
    Some(site)
}

fn checked(site: &Site) -> u8 {
    let parts = WideParts {
        units: site.units,
        count: site.flow.len(),
        from: &site.ends[0],
        to: &site.ends[1],
        metered: &site.metered,
        weight: &site.weight,
        reading: &site.reading,
        ranged: &site.ranged,
        low: &site.range[0],
        high: &site.range[1],
    };
    raw::check_flow(black_box(parts), black_box(&site.flow), black_box(&site.numbers))
}

// What is timed.
fn draw_sheet(site: &Site) {
    let mut sheet = [0; SHEET_SIZE];
    let (mut lasts, mut written, mut marked) = ([0; OFFICES], 0, 0);
    black_box(raw::balance_plant(black_box(&site.file), 0, &mut lasts, &mut sheet, &mut written, &mut marked));
}

fn check(site: &Site) {
    black_box(checked(site));
}

/// The plants of a kind and size that have a sheet.
fn sites(kind: Kind, (units, streams): (usize, usize), plants: usize) -> Vec<Site> {
    (0..).filter_map(|seed| site(draw(kind, units, streams, seed))).take(plants).collect()
}

/// A row's cells, from the times by the call and the plant.
fn cells(times: &[Vec<f64>]) -> String {
    let all = |call: usize| median(times[call].iter().copied());
    let by_plant = summary(times[1].iter().zip(&times[0]).map(|(check, sheet)| check / sheet));
    let cells = [all(0), all(1), all(1) / all(0), by_plant.median, by_plant.worst];
    cells.map(|x| format!("{x:.2}")).join(" | ")
}

fn main() {
    let mut words = std::env::args().skip(1).map(|word| word.parse().ok().filter(|&n| n > 0));
    let (plants, rounds) = (words.next().unwrap_or(Some(400)), words.next().unwrap_or(Some(9)));
    let (Some(plants), Some(rounds), None) = (plants, rounds, words.next()) else {
        eprintln!("usage: flows [PLANTS [ROUNDS]]");
        std::process::exit(2);
    };
    println!("| plants | units | streams | sheet call | check of a flow | check / sheet call | by plant | worst |");
    println!("|---|---|---|---|---|---|---|---|");
    let rows = KINDS.into_iter().flat_map(|kind| SIZES.map(|size| (kind, size)));
    let rows: Vec<_> = SMALL.map(|size| (Kind::Extremes, size)).into_iter().chain(rows).collect();
    let groups: Vec<Vec<Site>> = rows.iter().map(|&(kind, size)| sites(kind, size, plants)).collect();
    let times = in_turns(&groups, 2, rounds, |call, site| [draw_sheet, check][call](site));
    for ((kind, (units, streams)), times) in rows.into_iter().zip(times) {
        println!("| {} | {units} | {streams} | {} |", kind.name(), cells(&times));
    }
}
