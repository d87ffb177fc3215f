// SPDX-License-Identifier: LicenseRef-Wengeludo
//! The sheet call in plain Rust, by the library's algorithm.

mod classes;
mod distances;
mod file;
mod forest;
pub(crate) mod groups;
mod incidence;
pub(crate) mod newton;
mod phases;
mod sheet;
mod state;
mod ties;
mod watch;

pub use watch::{Phase, Unwatched, Watch, Work};

use crate::plants::{Plant, Stream, MAX_STREAMS};
use incidence::Incidence;
use sheet::Drawer;
use state::State;

/// The offices, 0 to 7.
const OFFICES: usize = 8;

/// A plant as read: its streams are the first `count`.
pub struct Site {
    units: usize,
    count: usize,
    streams: [Stream; MAX_STREAMS],
}

impl Site {
    fn streams(&self) -> &[Stream] {
        &self.streams[..self.count]
    }
}

/// The cheapest balanced flow in range, by the tie rule the first one: from the hint, or by phases where it is none; or places
/// that must take in more than they can let out.
fn solve<W: Watch>(streams: &[Stream], hinted: bool, state: &mut State, watch: &mut W) -> Result<(), u64> {
    let incidence = Incidence::new(streams);
    let improved = if hinted {
        phases::phase(streams, &incidence, state, 1, watch)
    } else {
        watch.fell_back();
        phases::phases(streams, &incidence, state, watch)
    };
    watch.phase(Phase::Improvements);
    improved?;
    ties::tie_all(streams, &incidence, state, watch);
    watch.phase(Phase::Ties);
    Ok(())
}

/// A hint put into a state; false where it is of no use.
type HintInto = fn(&[Stream], usize, &mut State) -> bool;

/// No hint.
fn no_hint(_: &[Stream], _: usize, _: &mut State) -> bool {
    false
}

/// The office that calls, and what a sheet call hands back beside its number.
pub struct Back<'a> {
    pub office: u8,
    pub lasts: &'a mut [u32],
    pub out: &'a mut [u8],
    pub written: &'a mut usize,
    pub marked: &'a mut u64,
}

/// The sheet call, as the library has it.
pub fn balance_plant<W: Watch>(bytes: &[u8], back: Back, watch: &mut W) -> u8 {
    balance_from(bytes, back, newton::hint, watch)
}

/// The sheet call without the hint: every plant goes by phases.
pub fn balance_by_phases<W: Watch>(bytes: &[u8], back: Back, watch: &mut W) -> u8 {
    balance_from(bytes, back, no_hint, watch)
}

fn balance_from<W: Watch>(bytes: &[u8], back: Back, hint: HintInto, watch: &mut W) -> u8 {
    let Back { office, lasts, out, written, marked } = back;
    *written = 0;
    *marked = 0;
    if out.len() < sheet::LEAST_SLICE || lasts.len() < OFFICES {
        return 1;
    }
    if usize::from(office) >= OFFICES {
        return 22;
    }
    let last = &mut lasts[usize::from(office)];
    if *last == u32::MAX {
        return 2;
    }
    watch.phase(Phase::Start);
    let site = match file::read(bytes) {
        Ok(site) => site,
        Err(number) => return number,
    };
    watch.phase(Phase::Read);
    let mut state = State::zero();
    let hinted = hint(site.streams(), site.units, &mut state);
    watch.phase(Phase::Hint);
    if let Err(places) = solve(site.streams(), hinted, &mut state, watch) {
        *marked = places;
        return 19;
    }
    *last += 1;
    *written = sheet::put(&site, &state.flows, Drawer { office, number: *last }, out, watch);
    0
}

/// The plant that a file lists.
pub fn plant_of(file: &[u8]) -> Option<Plant> {
    let site = file::read(file).ok()?;
    Some(Plant { units: site.units, streams: site.streams().to_vec() })
}

/// What a sheet call of a file takes, and the number that it returns.
pub fn work_on(file: &[u8]) -> Work {
    let (mut lasts, mut out, mut written, mut marked) = ([0; OFFICES], [0; sheet::LEAST_SLICE], 0, 0);
    let mut work = Work::new();
    let back = Back { office: 0, lasts: &mut lasts, out: &mut out, written: &mut written, marked: &mut marked };
    work.returned = balance_plant(file, back, &mut work);
    work
}

#[cfg(test)]
mod tests {
    use super::*;
    use crate::plants::{draw, Kind};

    /// The sheet; nothing where there is no flow, the places being tested.
    fn sheet_from(site: &Site, hint: HintInto, watch: &mut impl Watch) -> Option<Vec<u8>> {
        let (mut sheet, mut state) = (vec![0; sheet::LEAST_SLICE], State::zero());
        let hinted = hint(site.streams(), site.units, &mut state);
        match solve(site.streams(), hinted, &mut state, watch) {
            Ok(()) => {
                sheet::put(site, &state.flows, Drawer { office: 0, number: 1 }, &mut sheet, &mut Unwatched);
                Some(sheet)
            }
            Err(places) => {
                assert!(phases::overfull(site.streams(), places));
                None
            }
        }
    }

    /// Plants of every kind.
    fn each(mut run: impl FnMut(&Site, &str)) {
        for kind in Kind::ALL {
            for seed in 0..100 {
                let Ok(site) = file::read(&draw(kind, 32, 96, seed).file()) else { panic!("a plant refused") };
                run(&site, &format!("{} {seed}", kind.name()));
            }
        }
    }

    /// The work keeps within its bounds: improvements after a hint, improvements and stuck searches by phases.
    #[test]
    fn the_work_is_bounded() {
        each(|site, name| {
            for hint in [newton::hint as HintInto, no_hint] {
                let mut work = Work::new();
                sheet_from(site, hint, &mut work);
                let (improvements, stuck) = if work.fell_back { (184_072, 960) } else { (512, 1) };
                assert!(work.improvements <= improvements && work.stuck <= stuck, "{name}: {work:?}");
            }
        });
    }

    /// Few plants go by phases, so these are tried by themselves: the sheet is the same from a hint and without.
    #[test]
    fn the_hint_makes_no_difference() {
        each(|site, name| {
            assert_eq!(sheet_from(site, no_hint, &mut Unwatched), sheet_from(site, newton::hint, &mut Unwatched), "{name}");
        });
    }
}
