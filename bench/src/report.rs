// SPDX-License-Identifier: LicenseRef-Wengeludo
//! The tables, in Markdown.

use crate::climb::{climb, Aim, Worst, AIMS};
use crate::contestants::{Case, Contestant};
use crate::engine::{work_on, Phase, Work};
use crate::plants::{draw, Kind, Plant};
use crate::sequence::in_turns;
use crate::summary::{median, quartile, short, summary, Summary};
use std::time::Instant;

/// Units and streams of the plants measured.
pub const SIZES: [(usize, usize); 3] = [(5, 15), (12, 36), (32, 96)];

/// Plants of the greatest size that come between two times of a plant of the search.
const BETWEEN: usize = 99;

/// Where one plant is repeated: how many times, the least of which counts.
const REPEATED: usize = 9;

/// The plants of a kind and a size.
pub fn plants(kind: Kind, units: usize, streams: usize, count: usize) -> impl Iterator<Item = Plant> {
    (0..count as u64).map(move |seed| draw(kind, units, streams, seed))
}

/// What is measured: plants of each kind and size, rounds, and who takes part; the library comes first.
pub struct Race {
    pub count: usize,
    pub rounds: usize,
    pub contestants: Vec<Contestant>,
}

/// The times of some plants, by the contestant; none where it has no means for them.
struct Row {
    head: String,
    times: Vec<Option<Vec<f64>>>,
    repeated: f64,
}

impl Race {
    fn names(&self) -> impl Iterator<Item = &str> {
        self.contestants.iter().map(Contestant::name)
    }

    /// Some groups of plants, each with the first cells of its row. Before anything is timed all answers are compared.
    fn run(&self, groups: Vec<(String, Vec<Case>)>) -> Vec<Row> {
        let (heads, groups): (Vec<String>, Vec<Vec<Case>>) = groups.into_iter().unzip();
        let all_tried = |cases: &[Case], c: &Contestant| cases.iter().filter(|case| c.tried(case)).count() == cases.len();
        let able: Vec<Vec<bool>> =
            groups.iter().map(|cases| self.contestants.iter().map(|c| all_tried(cases, c)).collect()).collect();
        let times = in_turns(&groups, self.contestants.len(), self.rounds, |k, case| self.contestants[k].run(case));
        let rows = heads.into_iter().zip(&groups).zip(times).zip(able);
        rows.map(|(((head, cases), times), able)| {
            let repeated = median(cases.iter().map(|case| self.repeated(case)));
            let times = times.into_iter().zip(able).map(|(times, able)| able.then_some(times)).collect();
            Row { head, times, repeated }
        })
        .collect()
    }

    /// The library's least time where one plant is repeated.
    fn repeated(&self, case: &Case) -> f64 {
        let time = |_| {
            let start = Instant::now();
            self.contestants[0].run(case);
            start.elapsed().as_secs_f64() * 1e6
        };
        (0..REPEATED).map(time).fold(f64::MAX, f64::min)
    }
}

/// The cells of a row, one or more for each contestant, with a dash for who has no means.
fn cells(times: &[Option<Vec<f64>>], dashes: &str, of: impl Fn(&[f64]) -> String) -> String {
    let cell = |times: &Option<Vec<f64>>| times.as_ref().map_or(dashes.to_string(), |times| of(times));
    times.iter().map(cell).collect::<Vec<String>>().join(" | ")
}

fn of(times: &[f64]) -> Summary {
    summary(times.iter().copied())
}

/// A table's head: its first cells, then some for each name.
fn head(first: &str, names: impl Iterator<Item = impl AsRef<str>>, cells: fn(&str) -> String) {
    let line = format!("| {first} | {} |", names.map(|name| cells(name.as_ref())).collect::<Vec<String>>().join(" | "));
    println!("{line}\n|{}", "---|".repeat(line.matches(" | ").count() + 1));
}

/// A table's rows.
fn body(rows: &[Row], cells: impl Fn(&Row) -> String) {
    rows.iter().for_each(|row| println!("| {} | {} |", row.head, cells(row)));
}

/// Times and ratios of all kinds and sizes.
pub fn sizes(race: &Race) {
    let group = |kind: Kind, (units, streams): (usize, usize)| {
        let cases = plants(kind, units, streams, race.count).map(Case::new).collect();
        (format!("{} | {units} | {streams}", kind.name()), cases)
    };
    let rows = race.run(Kind::ALL.into_iter().flat_map(|kind| SIZES.map(|size| group(kind, size))).collect());
    let first = "plants | units | streams";
    println!("Microseconds in sequence, medians of {} plants of each kind and size, {} rounds.\n", race.count, race.rounds);
    head(first, race.names().chain(["library, one plant repeated"]), str::to_string);
    let medians = |row: &Row| cells(&row.times, "–", |times| short(of(times).median));
    body(&rows, |row| format!("{} | {}", medians(row), short(row.repeated)));
    println!("\nThe same plants: 99th percentile and worst.\n");
    head(first, race.names(), |name| format!("{name}: 99th | worst"));
    let tail = |s: Summary| format!("{} | {}", short(s.high), short(s.worst));
    body(&rows, |row| cells(&row.times, "– | –", |times| tail(of(times))));
    println!("\nThe library's time over that of each other, plant by plant: the median and the worst.\n");
    head(first, race.names().skip(1), |name| format!("library / {name} | worst"));
    body(&rows, |row| cells(&row.times[1..], "– | –", |times| ratios(&row.times[0], times)));
}

/// The library's times over another's, plant by plant.
fn ratios(library: &Option<Vec<f64>>, other: &[f64]) -> String {
    let ratios = summary(library.iter().flatten().zip(other).map(|(ours, theirs)| ours / theirs));
    format!("{} | {}", short(ratios.median), short(ratios.worst))
}

/// What the plain engine does on the plants of all kinds and sizes, and how long each part takes.
pub fn work(count: usize, rounds: usize) {
    println!(
        "\nThe plain engine's work, {count} plants of each kind and size: improvements (mean, most of one plant), places labelled \
         per search, streams looked at, how many plants went by phases; and the mean microseconds of each part, in sequence.\n"
    );
    println!(
        "| plants | units | streams | improvements | most | labelled | looked at | by phases \
         | reading | hint | improvements | ties | classes | writing |"
    );
    println!("|---|---|---|---|---|---|---|---|---|---|---|---|---|---|");
    for kind in Kind::ALL {
        for (units, streams) in SIZES {
            let files: Vec<Vec<u8>> = plants(kind, units, streams, count).map(|plant| plant.file()).collect();
            println!("| {} | {units} | {streams} | {} |", kind.name(), work_cells(&works(&files, rounds)));
        }
    }
}

/// The work on each file, each part's time being the lower quartile of its rounds.
fn works(files: &[Vec<u8>], rounds: usize) -> Vec<Work> {
    let all: Vec<Vec<Work>> = (0..rounds).map(|_| files.iter().map(|file| work_on(file)).collect()).collect();
    let mut last: Vec<Work> = all[rounds - 1].clone();
    for (k, work) in last.iter_mut().enumerate() {
        work.phases = std::array::from_fn(|part| quartile(all.iter().map(|round| round[k].phases[part])));
    }
    last
}

fn work_cells(all: &[Work]) -> String {
    let mean = |of: &dyn Fn(&Work) -> f64| all.iter().map(of).sum::<f64>() / all.len() as f64;
    let improvements = mean(&|w| w.improvements as f64);
    let most = all.iter().map(|w| w.improvements).max().unwrap_or(0);
    let searches = mean(&|w| (w.improvements + w.stuck) as f64);
    let labelled = if searches > 0.0 { mean(&|w| w.labelled as f64) / searches } else { 0.0 };
    let visits = mean(&|w| w.visits as f64);
    let fell_back = all.iter().filter(|w| w.fell_back).count();
    let phases = [Phase::Read, Phase::Hint, Phase::Improvements, Phase::Ties, Phase::Classes, Phase::Write];
    let phases = phases.map(|p| short(mean(&|w| w.phases[p as usize]))).join(" | ");
    format!("{improvements:.1} | {most} | {labelled:.1} | {visits:.0} | {fell_back} | {phases}")
}

/// Times by the number of streams: of each contestant its name, the streams and what their times come to.
pub struct Growth {
    pub name: String,
    pub points: Vec<(usize, Summary)>,
}

/// How cost grows with the streams: random extremes with a unit for every three streams, a fifth as many plants.
pub fn growth(race: &Race) -> Vec<Growth> {
    let count = (race.count + 4) / 5;
    println!(
        "\nHow cost grows, random extremes with a unit for every three streams, {count} plants of each size: microseconds in \
         sequence (median, worst).\n"
    );
    let group = |streams: usize| {
        let cases = plants(Kind::Extremes, streams / 3, streams, count).map(Case::new).collect();
        (format!("{streams} | {}", streams / 3), cases)
    };
    let sizes: Vec<usize> = (1..=16).map(|k| 6 * k).collect();
    let rows = race.run(sizes.iter().map(|&streams| group(streams)).collect());
    head("streams | units", race.names(), |name| format!("{name} | worst"));
    let both = |s: Summary| format!("{} | {}", short(s.median), short(s.worst));
    body(&rows, |row| cells(&row.times, "– | –", |times| both(of(times))));
    let points = |k: usize| sizes.iter().zip(&rows).filter_map(|(&n, row)| row.times[k].as_ref().map(|t| (n, of(t)))).collect();
    race.names().enumerate().map(|(k, name)| Growth { name: name.to_string(), points: points(k) }).collect()
}

/// The worst plants that climbing found, one for each aim, handed over; so many seconds for each. They are timed with drawn plants
/// of their size between them.
pub fn worst(race: &Race, seconds: f64) -> Vec<Plant> {
    let (units, streams) = SIZES[2];
    println!(
        "\nThe search for bad plants of {units} units and {streams} streams, {seconds} s for each aim: the plant with most work, \
         streams looked at and amounts moved, or with most improvements; the number returned, and its microseconds in sequence.\n"
    );
    let first = "sought | plants tried | looked at | moved | improvements | stuck | returned";
    head(first, race.names(), str::to_string);
    let climbed = AIMS.map(|aim| (aim, climb(aim, seconds)));
    let group = |(aim, worst): &(Aim, Worst)| {
        let between = plants(Kind::Extremes, units, streams, BETWEEN);
        (found(aim, worst), std::iter::once(worst.plant.clone()).chain(between).map(Case::new).collect())
    };
    let rows = race.run(climbed.iter().map(group).collect());
    body(&rows, |row| cells(&row.times, "–", |times| short(times[0])));
    climbed.into_iter().map(|(_, worst)| worst.plant).collect()
}

/// The first cells of the row of a worst plant.
fn found(aim: &Aim, Worst { work, tried, .. }: &Worst) -> String {
    let work = [*tried, work.visits, work.pushes, work.improvements, work.stuck, work.returned.into()];
    format!("{} | {}", aim.name, work.map(|n| n.to_string()).join(" | "))
}
