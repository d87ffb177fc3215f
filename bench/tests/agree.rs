// SPDX-License-Identifier: LicenseRef-Wengeludo
//! The plain engine against the library, byte for byte, on every plant that the benchmark times and on damaged files; and
//! the floor against the sheet's cost.

use wengeludo_balance::{raw, OFFICES, SHEET_SIZE};
use wengeludo_bench::draws::Draws;
use wengeludo_bench::engine::{self, Back, Unwatched};
use wengeludo_bench::floor;
use wengeludo_bench::plants::{draw, Kind, Plant, MAX_STREAMS};
use wengeludo_bench::report::{plants, SIZES};

/// What a sheet call leaves: its number, the last sheet numbers, the bytes counted, the slice, whether it marked places.
type Outcome = (u8, Vec<u32>, usize, Vec<u8>, bool);

/// Who calls: the office, and the last sheet numbers that it lends.
#[derive(Clone, Copy)]
struct Caller<'a> {
    office: u8,
    lasts: &'a [u32],
}

/// Office 0, before its first sheet.
const FIRST: Caller = Caller { office: 0, lasts: &[0; OFFICES] };

fn outcome(slice: usize, caller: Caller, call: impl FnOnce(&mut [u32], &mut [u8], &mut usize, &mut u64) -> u8) -> Outcome {
    let (mut lasts, mut written, mut marked, mut sheet) = (caller.lasts.to_vec(), 77, u64::MAX, vec![0xA5; slice]);
    let number = call(&mut lasts, &mut sheet, &mut written, &mut marked);
    (number, lasts, written, sheet, marked != 0)
}

fn library(file: &[u8], slice: usize, caller: Caller) -> Outcome {
    outcome(slice, caller, |lasts, sheet, written, marked| raw::balance_plant(file, caller.office, lasts, sheet, written, marked))
}

fn plain(file: &[u8], slice: usize, caller: Caller) -> Outcome {
    outcome(slice, caller, |lasts, out, written, marked| {
        engine::balance_plant(file, Back { office: caller.office, lasts, out, written, marked }, &mut Unwatched)
    })
}

/// The plain engine leaves what the library leaves, the choice of marked places aside.
fn compare(file: &[u8], slice: usize, caller: Caller) -> u8 {
    let library = library(file, slice, caller);
    assert_eq!(plain(file, slice, caller), library, "{file:02X?}");
    library.0
}

/// The thousand plants of each size that the benchmark draws.
fn agree_on(kind: Kind) {
    let number = if kind == Kind::Overfull { 19 } else { 0 };
    for (units, streams) in SIZES {
        for plant in plants(kind, units, streams, 1_000) {
            assert_eq!(compare(&plant.file(), SHEET_SIZE, FIRST), number);
        }
    }
}

#[test]
fn random_extremes() {
    agree_on(Kind::Extremes);
}

#[test]
fn as_a_site_has_them() {
    agree_on(Kind::Site);
}

#[test]
fn tie_rich() {
    agree_on(Kind::Ties);
}

#[test]
fn ranges() {
    agree_on(Kind::Ranges);
    agree_on(Kind::Pipes);
}

#[test]
fn ranges_that_no_flow_keeps() {
    agree_on(Kind::Overfull);
}

#[test]
fn plants_of_every_number_of_streams() {
    for streams in (6..=96).step_by(6) {
        for plant in plants(Kind::Extremes, streams / 3, streams, 200) {
            assert_eq!(compare(&plant.file(), SHEET_SIZE, FIRST), 0);
        }
    }
}

/// Files cut, lengthened or with a byte changed; slices, offices and counters at their edges.
#[test]
fn refusals() {
    let mut draws = Draws::new(3);
    let mut seen = [false; 23];
    for seed in 0..20_000 {
        let mut file = draw(draws.pick(&Kind::ALL), 5 + draws.below(3), 1 + draws.below(8), seed).file();
        match draws.below(4) {
            0 => file.truncate(draws.below(file.len())),
            1 => file.push(draws.below(256) as u8),
            _ => {
                let at = draws.below(file.len());
                file[at] = draws.pick(&[0, 1, 2, 3, 4, 5, 6, 40, 127, 128, 255]);
            }
        }
        let slice = draws.pick(&[SHEET_SIZE, SHEET_SIZE, SHEET_SIZE + 9, SHEET_SIZE - 1]);
        let office = draws.pick(&[0, 0, 3, 7, 7, 8, 255]);
        let lent = draws.pick(&[OFFICES, OFFICES, OFFICES, OFFICES + 1, OFFICES - 1]);
        let lasts: Vec<u32> = (0..lent).map(|_| draws.pick(&[0, 0, 41, u32::MAX - 1, u32::MAX])).collect();
        seen[usize::from(compare(&file, slice, Caller { office, lasts: &lasts }))] = true;
    }
    let mut file = vec![1, 1];
    (0..96).for_each(|_| file.extend([3, 0, 1]));
    file.push(2);
    seen[usize::from(compare(&file, SHEET_SIZE, FIRST))] = true;
    assert!((0..=12).chain([18, 19, 22]).all(|number| seen[number]), "some number never came up: {seen:?}");
}

/// The sheet's cost as its total has it.
fn cost_on_sheet(plant: &Plant) -> f64 {
    let (_, _, written, sheet, _) = library(&plant.file(), SHEET_SIZE, FIRST);
    let cost: [u8; 8] = sheet[written - 10..written - 2].try_into().unwrap();
    u64::from_be_bytes(cost) as f64
}

/// The floor's flows cost no more than the sheet's, and the sheet's at most a quarter of the summed weights more.
#[test]
fn the_floor_solves_the_same_plant() {
    for kind in [Kind::Extremes, Kind::Site, Kind::Ties] {
        for plant in plants(kind, 32, 96, 100) {
            let mut flows = [0.0; MAX_STREAMS];
            floor::solve(&plant.streams, plant.units, &mut flows);
            let metered = || plant.streams.iter().zip(&flows).filter(|(s, _)| s.metered);
            let floor: f64 = metered().map(|(s, x)| s.weight as f64 * (x - s.reading as f64).powi(2)).sum();
            let quarter: f64 = metered().map(|(s, _)| s.weight as f64 / 4.0).sum();
            let sheet = cost_on_sheet(&plant);
            let rounding = 1e-9 * sheet + 1e-3;
            assert!(floor <= sheet + rounding && sheet <= floor + quarter + rounding, "{floor} beside {sheet}");
        }
    }
}

/// The summed flows into the places that unmetered streams join, for each place.
fn group_nets(plant: &Plant, flows: &[f64; MAX_STREAMS]) -> Vec<f64> {
    let mut label: Vec<usize> = (0..=plant.units).collect();
    for s in plant.streams.iter().filter(|s| !s.metered) {
        let (old, new) = (label[usize::from(s.from)], label[usize::from(s.to)]);
        label.iter_mut().filter(|l| **l == old).for_each(|l| *l = new);
    }
    let mut nets = vec![0.0; plant.units + 1];
    for (s, x) in plant.streams.iter().zip(flows).filter(|(s, _)| s.metered) {
        nets[label[usize::from(s.from)]] -= x;
        nets[label[usize::from(s.to)]] += x;
    }
    nets
}

/// With ranges the floor's flows keep in them, and nearly balance on most plants: where they do not, Newton's method ran
/// out of rounds.
#[test]
fn the_floor_keeps_in_range() {
    for (kind, least) in [(Kind::Ranges, 75), (Kind::Pipes, 95)] {
        let mut balanced = 0;
        for plant in plants(kind, 32, 96, 100) {
            let mut flows = [0.0; MAX_STREAMS];
            floor::solve(&plant.streams, plant.units, &mut flows);
            assert!(plant.streams.iter().zip(&flows).all(|(s, x)| !s.ranged || (s.low as f64..=s.high as f64).contains(x)));
            balanced += usize::from(group_nets(&plant, &flows).iter().all(|net| net.abs() < 5.0));
        }
        assert!(balanced >= least, "{}: {balanced} of 100 balance", kind.name());
    }
}
