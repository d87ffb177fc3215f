// SPDX-License-Identifier: LicenseRef-Wengeludo
//! The benchmark's program (run.sh builds what it is handed, and runs it):
//!
//!     wengeludo_bench [--before OBJECT] [--peer NAME=OBJECT]... LIBRARY PLANTS SECONDS ROUNDS FOLDER
//!
//! LIBRARY  the archive that is measured, as a shared object; with --before another one beside it
//! PLANTS   how many plants of each kind and size
//! SECONDS  how long the search for bad plants runs, for each of the three aims
//! ROUNDS   how many times each plant is timed, all others between
//! FOLDER   where the plot of how cost grows (speed.svg) and the worst plants found (worst.bin, worst_ranges.bin,
//!          most_improvements.bin) are written

use std::process::exit;
use wengeludo_bench::climb::AIMS;
use wengeludo_bench::contestants::Contestant;
use wengeludo_bench::load;
use wengeludo_bench::plot;
use wengeludo_bench::report::{self, Race};

const USAGE: &str = "usage: wengeludo_bench [--before OBJECT] [--peer NAME=OBJECT]... LIBRARY PLANTS SECONDS ROUNDS FOLDER";

fn main() {
    let words: Vec<String> = std::env::args().skip(1).collect();
    if let Err(message) = run(&words) {
        eprintln!("{message}");
        exit(2);
    }
}

fn run(words: &[String]) -> Result<(), String> {
    let (mut before, mut peers) = (Vec::new(), Vec::new());
    let mut rest = words;
    while let [option, value, after @ ..] = rest {
        match (option.as_str(), value.split_once('=')) {
            ("--before", _) => before.push(archive("before", value)?),
            ("--peer", Some((name, path))) => {
                peers.push(Contestant::Peer { name: name.to_string(), call: load::peer_call(path)? })
            }
            _ => break,
        }
        rest = after;
    }
    let [library, plants, seconds, rounds, folder] = rest else { return Err(USAGE.to_string()) };
    let mut contestants = vec![archive("library", library)?];
    contestants.extend(before);
    contestants.extend([Contestant::Plain, Contestant::Floor]);
    contestants.extend(peers);
    let seconds = seconds.parse().ok().filter(|&s| s >= 0.0).ok_or(USAGE)?;
    tables(&Race { count: count(plants)?, rounds: count(rounds)?, contestants }, seconds, folder)
}

fn archive(name: &'static str, path: &str) -> Result<Contestant, String> {
    Ok(Contestant::Archive { name, call: load::sheet_call(path)? })
}

fn count(word: &str) -> Result<usize, String> {
    word.parse().ok().filter(|&n| n > 0).ok_or_else(|| USAGE.to_string())
}

fn tables(race: &Race, seconds: f64, folder: &str) -> Result<(), String> {
    report::sizes(race);
    let growth = report::growth(race);
    report::work(race.count, race.rounds);
    let found = report::worst(race, seconds);
    save(folder, "speed.svg", plot::svg(&growth).as_bytes())?;
    AIMS.iter().zip(&found).try_for_each(|(aim, plant)| save(folder, aim.file, &plant.file()))
}

fn save(folder: &str, name: &str, bytes: &[u8]) -> Result<(), String> {
    let path = std::path::Path::new(folder).join(name);
    std::fs::write(&path, bytes).map_err(|error| format!("{}: {error}", path.display()))
}
