// SPDX-License-Identifier: LicenseRef-Wengeludo
//! The one loop of the differential tests: inputs drawn from seeds, each compared with its reference, by as many threads as there are
//! processors. What comes of them is counted; a difference is shrunk, and the smallest input found is shown with its seed.
//!
//! WENGELUDO_INPUTS   how many inputs (default 100,000); a test whose inputs take long draws one for several of these
//! WENGELUDO_SEED     the first seed (default 1); input k has the seed WENGELUDO_SEED + k
//! WENGELUDO_THREADS  how many threads (default: the machine's processors)

use crate::draw::Draw;
use crate::shrink;
use std::fmt::{Debug, Display};
use std::sync::atomic::{AtomicU64, Ordering};

/// From so many inputs on, each outcome must have come up.
const ENOUGH: u64 = 100_000;

pub fn number(name: &str, other: u64) -> u64 {
    match std::env::var(name) {
        Ok(text) => text.replace('_', "").parse().unwrap_or_else(|_| panic!("{name} is no number: {text}")),
        Err(_) => other,
    }
}

/// Outcomes, counted by several threads.
pub struct Counts(Vec<AtomicU64>);

impl Counts {
    pub fn add(&self, place: usize, many: u64) {
        self.0[place].fetch_add(many, Ordering::Relaxed);
    }

    pub fn one(&self, place: impl Into<usize>) {
        self.add(place.into(), 1);
    }
}

/// What is compared with its reference.
pub struct Subject<T, A> {
    pub name: &'static str,
    pub drawn: fn(&mut Draw) -> T,
    pub difference: fn(&T) -> Result<A, String>,
    /// Simpler inputs, for the shrinker.
    pub simpler: fn(&T) -> Vec<T>,
    pub shown: fn(&T) -> String,
    /// Where an answer is counted.
    pub note: fn(&Counts, &A),
    /// How many places there are to count in.
    pub places: usize,
    /// One input for so many of WENGELUDO_INPUTS.
    pub one_for: u64,
}

impl<T: Debug> Subject<T, u8> {
    /// A subject whose answers are counted by the number returned, up to `last`.
    pub fn by_number(
        name: &'static str,
        drawn: fn(&mut Draw) -> T,
        difference: fn(&T) -> Result<u8, String>,
        simpler: fn(&T) -> Vec<T>,
        last: usize,
    ) -> Subject<T, u8> {
        let shown = |input: &T| format!("{input:02X?}");
        Subject {
            name,
            drawn,
            difference,
            simpler,
            shown,
            note: |counts, number| counts.one(*number),
            places: last + 1,
            one_for: 1,
        }
    }
}

/// What came of a run.
pub struct Tally {
    enough: bool,
    counts: Vec<u64>,
}

impl<T, A> Subject<T, A> {
    /// Compares all inputs, and says so.
    pub fn agree(&self) -> Tally {
        let (all, seed) = (number("WENGELUDO_INPUTS", 100_000), number("WENGELUDO_SEED", 1));
        let inputs = all / self.one_for;
        let processors = std::thread::available_parallelism().map_or(1, |n| n.get() as u64);
        let threads = number("WENGELUDO_THREADS", processors).max(1);
        let counts = Counts((0..self.places).map(|_| AtomicU64::new(0)).collect());
        let next = AtomicU64::new(0);
        std::thread::scope(|scope| {
            for _ in 0..threads {
                scope.spawn(|| loop {
                    let k = next.fetch_add(1, Ordering::Relaxed);
                    if k >= inputs {
                        return;
                    }
                    if k > 0 && k % 1_000_000 == 0 {
                        println!("{}: {k} inputs, no difference so far", self.name);
                    }
                    self.compare(seed + k, &counts);
                });
            }
        });
        println!("{}: {inputs} inputs from seed {seed}, no difference", self.name);
        let counts = counts.0.into_iter().map(AtomicU64::into_inner).collect();
        Tally { enough: all >= ENOUGH, counts }
    }

    fn compare(&self, seed: u64, counts: &Counts) {
        let input = (self.drawn)(&mut Draw::new(seed));
        match (self.difference)(&input) {
            Ok(answer) => (self.note)(counts, &answer),
            Err(text) => {
                let small = shrink::smallest(input, &self.simpler, &|i| (self.difference)(i).is_err());
                let again = (self.difference)(&small).err().unwrap();
                panic!("seed {seed}: {}: {text}\nsmallest input found: {again}\n{}", self.name, (self.shown)(&small));
            }
        }
    }
}

impl Tally {
    pub fn count(&self, place: usize) -> u64 {
        self.counts[place]
    }

    /// How many came to each of these numbers, those that none came to left out.
    pub fn refusals(&self, first: usize, last: usize) -> String {
        self.listed((first..=last).map(|i| (i, i)))
    }

    /// The same for places that have other names.
    pub fn listed<N: Display>(&self, places: impl Iterator<Item = (N, usize)>) -> String {
        let met = places.filter(|&(_, i)| self.count(i) > 0).map(|(name, i)| format!("{name}: {}", self.count(i)));
        met.collect::<Vec<String>>().join(", ")
    }

    /// In a run that is long enough each of these places has come up, and no other from `first` to `last`.
    pub fn all_met(&self, met: &[usize], first: usize, last: usize) {
        if self.enough {
            assert!(met.iter().all(|&i| self.count(i) > 0), "some outcome never came up");
            assert!((first..=last).all(|i| self.count(i) == 0 || met.contains(&i)), "an outcome that the call does not have");
        }
    }
}
