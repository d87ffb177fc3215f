// SPDX-License-Identifier: LicenseRef-Wengeludo
//! Times the check of a sheet and the call over numbers of the places beside the sheet call, on plants in sequence:
//!
//!     checks [PLANTS [ROUNDS]]
//!
//! A plant's time is the lower quartile of its rounds. Before that each sheet must pass the check with its numbers.

use std::hint::black_box;
use wengeludo_balance::{raw, MAX_PLACES, OFFICES, SHEET_SIZE};
use wengeludo_bench::plants::{draw, Kind, Plant};
use wengeludo_bench::report::SIZES;
use wengeludo_bench::sequence::in_turns;
use wengeludo_bench::summary::{median, summary};

const KINDS: [Kind; 5] = [Kind::Site, Kind::Extremes, Kind::Ties, Kind::Ranges, Kind::Pipes];
const SMALL: [(usize, usize); 3] = [(1, 0), (1, 2), (2, 6)];

/// A plant file, its sheet and its numbers.
struct Site {
    file: Vec<u8>,
    sheet: Vec<u8>,
    numbers: Vec<i64>,
}

fn sheet(file: &[u8]) -> Option<Vec<u8>> {
    let mut sheet = [0; SHEET_SIZE];
    let (mut lasts, mut written, mut marked) = ([0; OFFICES], 0, 0);
    let number = raw::balance_plant(black_box(file), 0, &mut lasts, &mut sheet, &mut written, &mut marked);
    (number == 0).then(|| sheet[..written].to_vec())
}

/// A plant that has a sheet.
fn site(plant: Plant) -> Option<Site> {
    let file = plant.file();
    let sheet = sheet(&file)?;
    let (mut numbers, mut count) = ([0; MAX_PLACES], 0);
    assert_eq!(raw::place_numbers(&file, &mut numbers, &mut count), 0, "no numbers for {file:02X?}");
    let numbers = numbers[..count].to_vec();
    assert_eq!(raw::check_sheet(&file, &sheet, &numbers), 0, "the sheet does not pass, of {file:02X?}");
    Some(Site { file, sheet, numbers })
}

// What is timed.
fn draw_sheet(site: &Site) {
    let mut sheet = [0; SHEET_SIZE];
    let (mut lasts, mut written, mut marked) = ([0; OFFICES], 0, 0);
    black_box(raw::balance_plant(black_box(&site.file), 0, &mut lasts, &mut sheet, &mut written, &mut marked));
}

fn check(site: &Site) {
    black_box(raw::check_sheet(black_box(&site.file), black_box(&site.sheet), black_box(&site.numbers)));
}

fn number(site: &Site) {
    let (mut numbers, mut count) = ([0; MAX_PLACES], 0);
    black_box(raw::place_numbers(black_box(&site.file), &mut numbers, &mut count));
}

/// The plants of a kind and size that have a sheet.
fn sites(kind: Kind, (units, streams): (usize, usize), plants: usize) -> Vec<Site> {
    (0..).filter_map(|seed| site(draw(kind, units, streams, seed))).take(plants).collect()
}

/// A row's cells, from the times by the call and the plant.
fn cells(times: &[Vec<f64>]) -> String {
    let all = |call: usize| median(times[call].iter().copied());
    let by_plant = summary(times[1].iter().zip(&times[0]).map(|(check, sheet)| check / sheet));
    let cells = [all(0), all(1), all(2), all(1) / all(0), by_plant.median, by_plant.worst];
    cells.map(|x| format!("{x:.2}")).join(" | ")
}

fn main() {
    let mut words = std::env::args().skip(1).map(|word| word.parse().ok().filter(|&n| n > 0));
    let (plants, rounds) = (words.next().unwrap_or(Some(400)), words.next().unwrap_or(Some(9)));
    let (Some(plants), Some(rounds), None) = (plants, rounds, words.next()) else {
        eprintln!("usage: checks [PLANTS [ROUNDS]]");
        std::process::exit(2);
    };
    println!("| plants | units | streams | sheet call | check | numbers | check / sheet call | by plant | worst |");
    println!("|---|---|---|---|---|---|---|---|---|");
    let rows = KINDS.into_iter().flat_map(|kind| SIZES.map(|size| (kind, size)));
    let rows: Vec<_> = SMALL.map(|size| (Kind::Extremes, size)).into_iter().chain(rows).collect();
    let groups: Vec<Vec<Site>> = rows.iter().map(|&(kind, size)| sites(kind, size, plants)).collect();
    let times = in_turns(&groups, 3, rounds, |call, site| [draw_sheet, check, number][call](site));
    for ((kind, (units, streams)), times) in rows.into_iter().zip(times) {
        println!("| {} | {units} | {streams} | {} |", kind.name(), cells(&times));
    }
}
