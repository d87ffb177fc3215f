// SPDX-License-Identifier: LicenseRef-Wengeludo
//! Times the call over meters worth a visit beside the sheet call, on plants in sequence:
//!
//!     visits [PLANTS [ROUNDS]]
//!
//! A plant's time is the lower quartile of its rounds. Before that, each list is compared with the sheets of the plants with one
//! meter less.

use std::hint::black_box;
use wengeludo_balance::{raw, visits, Visit, MAX_STREAMS, OFFICES, SHEET_SIZE};
use wengeludo_bench::plants::{draw, Kind, Plant, Stream};
use wengeludo_bench::sequence::in_turns;
use wengeludo_bench::summary::{median, summary};

const KINDS: [Kind; 5] = [Kind::Site, Kind::Extremes, Kind::Ties, Kind::Ranges, Kind::Pipes];
const SIZES: [(usize, usize); 2] = [(12, 36), (32, 96)];

/// A plant with what is called of it: its file, and the file without each meter that is listed.
struct Site {
    file: Vec<u8>,
    less: Vec<Vec<u8>>,
}

/// The sheet call: the number returned and the cost.
fn sheet(file: &[u8]) -> (u8, u64) {
    let mut sheet = [0; SHEET_SIZE];
    let (mut lasts, mut written, mut marked) = ([0; OFFICES], 0, 0);
    let number = raw::balance_plant(black_box(file), 0, &mut lasts, &mut sheet, &mut written, &mut marked);
    let total = if number == 0 { &sheet[written - 10..written - 2] } else { &sheet[..8] };
    (number, u64::from_be_bytes(total.try_into().unwrap()))
}

/// A plant that has a list, and its files; each cost is that of the sheet without the meter.
fn site(plant: Plant) -> Option<Site> {
    let file = plant.file();
    let list = visits(&file).ok()?;
    let without = |k: usize| {
        let mut less = plant.clone();
        less.streams[k] = Stream::unmetered(plant.streams[k].from, plant.streams[k].to);
        less.file()
    };
    let less: Vec<Vec<u8>> = list.iter().map(|visit| without(usize::from(visit.stream) - 1)).collect();
    for (Visit { stream, cost }, file) in list.iter().zip(&less) {
        assert_eq!((0, *cost), sheet(file), "another cost without stream {stream}");
    }
    Some(Site { file, less })
}

// What is timed: the sheet call, the list, and a sheet call for each entry of the list.
fn draw_sheet(site: &Site) {
    black_box(sheet(&site.file));
}

fn list(site: &Site) {
    let (mut streams, mut costs, mut count) = ([0; MAX_STREAMS], [0; MAX_STREAMS], 0);
    black_box(raw::visits(black_box(&site.file), &mut streams, &mut costs, &mut count));
}

fn draw_each(site: &Site) {
    for file in &site.less {
        black_box(sheet(file));
    }
}

/// The plants of a kind and size that have a list.
fn sites(kind: Kind, (units, streams): (usize, usize), plants: usize) -> Vec<Site> {
    (0..).filter_map(|seed| site(draw(kind, units, streams, seed))).take(plants).collect()
}

/// A row's cells, from the times by the call and the plant.
fn cells(times: &[Vec<f64>]) -> String {
    let all = |call: usize| median(times[call].iter().copied());
    let by_plant = summary(times[1].iter().zip(&times[0]).map(|(list, sheet)| list / sheet));
    let cells = [all(0), all(1), all(1) / all(0), by_plant.median, by_plant.worst, all(2) / all(0)];
    cells.map(|x| format!("{x:.1}")).join(" | ")
}

fn main() {
    let mut words = std::env::args().skip(1).map(|word| word.parse().ok().filter(|&n| n > 0));
    let (plants, rounds) = (words.next().unwrap_or(Some(200)), words.next().unwrap_or(Some(9)));
    let (Some(plants), Some(rounds), None) = (plants, rounds, words.next()) else {
        eprintln!("usage: visits [PLANTS [ROUNDS]]");
        std::process::exit(2);
    };
    println!("| plants | units | streams | listed | sheet call | list | list / sheet call | by plant | worst | a sheet call for each entry |");
    println!("|---|---|---|---|---|---|---|---|---|---|");
    let rows: Vec<_> = KINDS.into_iter().flat_map(|kind| SIZES.map(|size| (kind, size))).collect();
    let groups: Vec<Vec<Site>> = rows.iter().map(|&(kind, size)| sites(kind, size, plants)).collect();
    let times = in_turns(&groups, 3, rounds, |call, site| [draw_sheet, list, draw_each][call](site));
    for (((kind, (units, streams)), sites), times) in rows.into_iter().zip(&groups).zip(times) {
        let listed = median(sites.iter().map(|site| site.less.len() as f64));
        println!("| {} | {units} | {streams} | {listed:.0} | {} |", kind.name(), cells(&times));
    }
}
