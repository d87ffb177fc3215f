// SPDX-License-Identifier: LicenseRef-Wengeludo
//! Who is timed, and what must hold of their answers before.

use crate::engine::{self, Back, Unwatched};
use crate::floor;
use crate::load::{PeerCall, SheetCall};
use crate::plants::{Plant, Stream, MAX_STREAMS};
use std::hint::black_box;
use wengeludo_balance::{OFFICES, SHEET_SIZE};

/// What a peer returns beside 0 and 19: it has no means for the plant.
const NO_MEANS: u8 = 255;

/// No flow in range.
const NO_FLOW: u8 = 19;

/// A plant and its file.
pub struct Case {
    pub plant: Plant,
    pub file: Vec<u8>,
}

impl Case {
    pub fn new(plant: Plant) -> Case {
        let file = plant.file();
        Case { plant, file }
    }
}

/// One that is timed.
pub enum Contestant {
    /// The sheet call of an archive.
    Archive { name: &'static str, call: SheetCall },
    /// The sheet call in plain Rust.
    Plain,
    /// The real-number solve, from the listed streams to the flows.
    Floor,
    /// Another library's solve, from the file (peers/).
    Peer { name: String, call: PeerCall },
}

/// What a sheet call leaves: its number, the last sheet numbers, the count, the slice, whether it marked places.
type Sheet = (u8, [u32; OFFICES], usize, [u8; SHEET_SIZE], bool);

/// What a peer leaves: its number, kinds of record and flows.
type Solved = (u8, [u8; MAX_STREAMS], [f64; MAX_STREAMS]);

fn of_archive(call: SheetCall, file: &[u8]) -> Sheet {
    let (mut lasts, mut sheet, mut written, mut marked) = ([6; OFFICES], [0xA5; SHEET_SIZE], 1, 1);
    let (last, slice) = (lasts.as_mut_ptr(), sheet.as_mut_ptr());
    // SAFETY: every pointer has as many elements as the length beside it says, and no two overlap.
    let number = unsafe { call(file.as_ptr(), file.len(), 0, last, OFFICES, slice, SHEET_SIZE, &mut written, &mut marked) };
    (number, lasts, written, sheet, marked != 0)
}

fn of_plain(file: &[u8]) -> Sheet {
    let (mut lasts, mut out, mut written, mut marked) = ([6; OFFICES], [0xA5; SHEET_SIZE], 1, 1);
    let back = Back { office: 0, lasts: &mut lasts, out: &mut out, written: &mut written, marked: &mut marked };
    let number = engine::balance_plant(file, back, &mut Unwatched);
    (number, lasts, written, out, marked != 0)
}

fn of_peer(call: PeerCall, file: &[u8]) -> Solved {
    let (mut kinds, mut flows) = ([0; MAX_STREAMS], [0.0; MAX_STREAMS]);
    // SAFETY: a file with its length, and arrays of as many elements as peers/peer.h asks for.
    let number = unsafe { call(file.as_ptr(), file.len(), kinds.as_mut_ptr(), flows.as_mut_ptr()) };
    (number, kinds, flows)
}

impl Contestant {
    pub fn name(&self) -> &str {
        match self {
            Contestant::Archive { name, .. } => name,
            Contestant::Plain => "plain",
            Contestant::Floor => "floor",
            Contestant::Peer { name, .. } => name,
        }
    }

    /// One call; this is what is timed.
    pub fn run(&self, case: &Case) {
        let file = black_box(&case.file[..]);
        match self {
            Contestant::Archive { call, .. } => {
                black_box(&of_archive(*call, file));
            }
            Contestant::Plain => {
                black_box(&of_plain(file));
            }
            Contestant::Floor => {
                let mut flows = [0.0; MAX_STREAMS];
                floor::solve(black_box(&case.plant.streams), case.plant.units, black_box(&mut flows));
            }
            Contestant::Peer { call, .. } => {
                black_box(&of_peer(*call, file));
            }
        }
    }

    /// Whether it has means for the plant. Stops where its answer is wrong: a sheet that is not plain Rust's byte for byte, a
    /// peer's flows that cannot be right beside the sheet.
    pub fn tried(&self, case: &Case) -> bool {
        match self {
            Contestant::Archive { name, call } => {
                assert!(of_archive(*call, &case.file) == of_plain(&case.file), "{name}: another sheet of {:02X?}", case.file);
                true
            }
            Contestant::Plain | Contestant::Floor => true,
            Contestant::Peer { name, call } => {
                let solved = of_peer(*call, &case.file);
                if solved.0 != NO_MEANS {
                    let right = agrees(&case.plant, &solved, &of_plain(&case.file));
                    assert!(right, "{name}: a wrong answer to {:02X?}: {:?}", case.file, solved);
                }
                solved.0 != NO_MEANS
            }
        }
    }
}

/// The kind of each stream's record on a sheet, and its flow; 0 where there is none.
fn records(sheet: &Sheet, count: usize) -> Vec<(u8, i64)> {
    let mut rest = &sheet.3[..sheet.2];
    (0..count)
        .map(|_| {
            let size = if rest[0] == 0x14 { 1 } else { 9 };
            let (record, after) = rest.split_at(size);
            rest = after;
            (record[0], if size == 1 { 0 } else { i64::from_be_bytes(record[1..].try_into().expect("8 bytes")) })
        })
        .collect()
}

fn cost(streams: &[Stream], flow: impl Fn(usize) -> f64) -> f64 {
    let metered = streams.iter().enumerate().filter(|(_, s)| s.metered);
    metered.map(|(i, s)| s.weight as f64 * (flow(i) - s.reading as f64).powi(2)).sum()
}

/// A peer's answer beside the sheet: the same refusal; the same classes, where it tells them; in whole numbers the same cost, in
/// real numbers a cost that is no higher, and lower by at most a quarter of the metered streams' weights; a balanced flow.
fn agrees(plant: &Plant, (number, kinds, flows): &Solved, sheet: &Sheet) -> bool {
    if *number != 0 || sheet.0 != 0 {
        return *number == NO_FLOW && sheet.0 == NO_FLOW;
    }
    let streams = &plant.streams;
    let records = records(sheet, streams.len());
    let classes = kinds.iter().zip(&records).all(|(kind, (other, _))| *kind == 0 || kind == other);
    let (theirs, ours) = (cost(streams, |i| flows[i]), cost(streams, |i| records[i].1 as f64));
    let whole = flows.iter().all(|x| x.fract() == 0.0);
    let quarter = if whole { 0.0 } else { streams.iter().map(|s| s.weight as f64 / 4.0).sum() };
    let rounding = 1e-9 * ours + 1e-3;
    classes && theirs <= ours + rounding && ours <= theirs + quarter + rounding && balances(plant, flows, whole)
}

/// Whether a peer's flows balance at every unit, to a thousandth of a kg/h where they are fractions, and keep in range.
fn balances(plant: &Plant, flows: &[f64; MAX_STREAMS], whole: bool) -> bool {
    let mut nets = vec![0.0; plant.units + 1];
    for (s, x) in plant.streams.iter().zip(flows) {
        nets[usize::from(s.from)] -= x;
        nets[usize::from(s.to)] += x;
    }
    let most = if whole { 0.0 } else { 1e-3 };
    let in_range = plant.streams.iter().zip(flows).all(|(s, x)| !s.ranged || (s.low as f64..=s.high as f64).contains(x));
    in_range && nets[1..].iter().all(|net| net.abs() <= most)
}

#[cfg(test)]
mod tests {
    use super::*;

    /// In 103, out 60 and 40, of weight 10 each: 102, 61 and 41 are the flows.
    fn header() -> Plant {
        let stream = |from, to, reading| Stream::metered(from, to, 10, reading);
        Plant { units: 1, streams: vec![stream(0, 1, 103), stream(1, 0, 60), stream(1, 0, 40)] }
    }

    fn solved(number: u8, kinds: [u8; 3], flows: [f64; 3]) -> Solved {
        let mut all = (number, [0; MAX_STREAMS], [0.0; MAX_STREAMS]);
        all.1[..3].copy_from_slice(&kinds);
        all.2[..3].copy_from_slice(&flows);
        all
    }

    #[test]
    fn right_answers_are_taken() {
        let (plant, sheet) = (header(), of_plain(&header().file()));
        assert!(agrees(&plant, &solved(0, [0x11; 3], [102.0, 61.0, 41.0]), &sheet));
        assert!(agrees(&plant, &solved(0, [0; 3], [102.0, 61.0, 41.0]), &sheet));
    }

    #[test]
    fn wrong_answers_are_refused() {
        let (plant, sheet) = (header(), of_plain(&header().file()));
        let refused = |solved| assert!(!agrees(&plant, &solved, &sheet));
        refused(solved(NO_FLOW, [0x11; 3], [102.0, 61.0, 41.0])); // there is a flow
        refused(solved(0, [0x11, 0x12, 0x11], [102.0, 61.0, 41.0])); // another class
        refused(solved(0, [0x11; 3], [103.0, 61.0, 42.0])); // dearer
        refused(solved(0, [0x11; 3], [103.0, 60.0, 40.0])); // no balance
        refused(solved(0, [0x11; 3], [100.5, 60.25, 40.25])); // dearer, in fractions
    }

    #[test]
    fn flows_out_of_range_are_refused() {
        let mut plant = header();
        plant.streams[0] = plant.streams[0].within(0, 101);
        let sheet = of_plain(&plant.file());
        assert!(agrees(&plant, &solved(0, [0; 3], [101.0, 61.0, 40.0]), &sheet));
        assert!(!agrees(&plant, &solved(0, [0; 3], [102.0, 61.0, 41.0]), &sheet));
    }
}
