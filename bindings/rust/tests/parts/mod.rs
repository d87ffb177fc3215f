// SPDX-License-Identifier: LicenseRef-Wengeludo
//! The plant reader against the reference's: drawn plants and damaged files into eight slices about as long as they must be, with every
//! element past the streams; and the file written again from what was read.

use crate::draw::{Call, Draw};
use crate::reference::{read, Listed, Stream};
use crate::{agree::Subject, shrink};
use wengeludo_balance::raw::{self, PartsRoom};
use wengeludo_balance::Plant;

/// Eight slices of these lengths, no two elements of a slice alike as far as their type goes.
#[derive(Clone, Debug, PartialEq)]
struct Slices {
    bytes: [Vec<u8>; 4], // from, to, metered, ranged
    weight: Vec<u16>,
    numbers: [Vec<i32>; 3], // reading, low, high
}

impl Slices {
    fn filled(lengths: &[usize; 8]) -> Slices {
        let bytes = |i: usize| (0..lengths[i]).map(|k| (k * 37 + i) as u8 ^ 0xA5).collect();
        let numbers = |i: usize| (0..lengths[i]).map(|k| -((k * 7919 + i) as i32)).collect();
        Slices {
            bytes: [bytes(0), bytes(1), bytes(2), bytes(5)],
            weight: (0..lengths[3]).map(|k| (k * 251) as u16 ^ 0x5A5A).collect(),
            numbers: [numbers(4), numbers(6), numbers(7)],
        }
    }

    fn put(&mut self, k: usize, s: &Stream) {
        let (weight, reading) = s.meter.unwrap_or_default();
        let (low, high) = s.range.unwrap_or_default();
        let ends = [s.from as u8, s.to as u8, s.meter.is_some().into(), s.range.is_some().into()];
        for (slice, value) in self.bytes.iter_mut().zip(ends) {
            slice[k] = value;
        }
        self.weight[k] = weight;
        for (slice, value) in self.numbers.iter_mut().zip([reading, low, high]) {
            slice[k] = value;
        }
    }

    fn read(&mut self, file: &[u8], units: &mut u8, count: &mut usize) -> u8 {
        let [from, to, metered, ranged] = &mut self.bytes;
        let [reading, low, high] = &mut self.numbers;
        let weight = &mut self.weight;
        raw::read_plant(file, units, count, PartsRoom { from, to, metered, weight, reading, ranged, low, high })
    }
}

/// A file, and how long the slices are, in the order of the call.
#[derive(Clone, Debug)]
struct Input {
    call: Call,
    lengths: [usize; 8],
}

fn drawn(draw: &mut Draw) -> Input {
    let mut lengths = [96; 8];
    for length in &mut lengths {
        *length += draw.below(3);
    }
    if draw.below(10) == 0 {
        lengths[draw.below(8)] = [95, draw.below(96)][draw.below(2)];
    }
    Input { call: draw.call(), lengths }
}

/// What must be found: the number, and the plant; none after a refusal.
fn expected(input: &Input) -> (u8, Listed) {
    let short = input.lengths.iter().any(|&length| length < 96);
    match if short { Err(1) } else { read(&input.call.file) } {
        Ok(plant) => (0, plant),
        Err(number) => (number, Listed { units: 0, streams: Vec::new() }),
    }
}

fn difference(input: &Input) -> Result<u8, String> {
    let (number, plant) = expected(input);
    let (mut found, mut due) = (Slices::filled(&input.lengths), Slices::filled(&input.lengths));
    for (k, stream) in plant.streams.iter().enumerate() {
        due.put(k, stream);
    }
    let (file, mut units, mut count) = (input.call.file.clone(), 77, 77);
    let returned = found.read(&file, &mut units, &mut count);
    if (returned, units, count) != (number, plant.units, plant.streams.len()) {
        return Err(format!(
            "{returned}, {units} units, {count} streams; expected {number}, {} and {}",
            plant.units,
            plant.streams.len()
        ));
    }
    if found != due {
        return Err(format!("{found:?}, expected {due:?}"));
    }
    if file != input.call.file {
        return Err("the file changed".into());
    }
    if returned == 0 && Plant::from_file(&file).and_then(|plant| plant.file()) != Ok(file) {
        return Err("written again it differs".into());
    }
    Ok(returned)
}

fn simpler(input: &Input) -> Vec<Input> {
    let lengths = input.lengths;
    shrink::simpler_calls(&input.call).into_iter().map(|call| Input { call, lengths }).collect()
}

#[test]
fn plant_reader_and_reference_agree() {
    let shown = |input: &Input| format!("slices of {:?}: {}", input.lengths, input.call);
    let note = |counts: &crate::Counts, returned: &u8| counts.one(*returned);
    let tally = Subject { name: "the plant reader", drawn, difference, simpler, shown, note, places: 19, one_for: 1 }.agree();
    let refusals: Vec<usize> = [1].into_iter().chain(3..=12).chain([18]).collect();
    println!("plants read: {}; refusals {}", tally.count(0), tally.listed(refusals.iter().map(|&i| (i, i))));
    tally.all_met(&[&[0], &refusals[..]].concat(), 0, 18);
}

/// What the builder makes comes back from its file, by its streams too.
#[test]
fn plants_come_back() {
    let plant = Plant::new(3).metered_within(0, 1, 10, -7, -1, 9).unmetered(1, 2).metered(3, 0, 1000, 4_000_000);
    let again = Plant::from_file(&plant.file().unwrap()).unwrap();
    assert_eq!(again, plant);
    assert_eq!((again.units(), again.streams()), (3, 3));
    let streams: Vec<_> = (0..4).map(|k| again.stream_at(k)).collect();
    assert_eq!(streams[0].unwrap().range, Some((-1, 9)));
    assert_eq!(streams[1].unwrap().meter, None);
    let last = streams[2].unwrap();
    assert_eq!((last.from, last.to, last.meter, last.range), (3, 0, Some((1000, 4_000_000)), None));
    assert_eq!(streams[3], None);
}
