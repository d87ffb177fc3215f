// SPDX-License-Identifier: LicenseRef-Wengeludo
//! A builder for transmitter files, and the translator.

use crate::raw;
use crate::refusal::Refusal;
use crate::FILE_SIZE;

/// What the transmitters of a plant send: for each stream a value in kg per hour and its standard deviation, as measured or
/// as held from before, or a fault. Place 0 is the outside. Any values are taken here; what is wrong with them is said
/// when the plant file is made.
///
/// ```
/// use wengeludo_balance::{Plant, Refusal, Transmitter};
/// let sent = Transmitter::new(2)
///     .measured(0, 1, 100.25, 10.0)
///     .fault(1, 2)
///     .held(2, 0, 98.5, 5.0);
/// let plant = Plant::new(2).metered(0, 1, 10, 100).unmetered(1, 2).metered(2, 0, 10, 98);
/// assert_eq!(sent.plant()?, plant.file()?);
/// assert_eq!(Transmitter::new(1).measured(0, 1, f32::NAN, 1.0).plant(), Err(Refusal::Value));
/// assert_eq!(Transmitter::new(1).measured(0, 1, 7.0, 0.0).plant(), Err(Refusal::Deviation));
/// # Ok::<(), Refusal>(())
/// ```
#[derive(Clone, Debug, PartialEq, Eq)]
pub struct Transmitter {
    records: Vec<u8>,
    streams: usize,
}

impl Transmitter {
    /// A plant of so many units, nothing sent yet.
    pub fn new(units: u8) -> Transmitter {
        Transmitter { records: vec![0x01, units], streams: 0 }
    }

    /// Adds a measured value.
    pub fn measured(self, from: u8, to: u8, value: f32, deviation: f64) -> Transmitter {
        self.signal(0x21, from, to, value, deviation)
    }

    /// Adds a value held from before, which weighs a quarter.
    pub fn held(self, from: u8, to: u8, value: f32, deviation: f64) -> Transmitter {
        self.signal(0x22, from, to, value, deviation)
    }

    /// Adds a stream whose transmitter is out of order; it becomes unmetered.
    pub fn fault(self, from: u8, to: u8) -> Transmitter {
        self.record(&[0x23, from, to])
    }

    fn signal(self, kind: u8, from: u8, to: u8, value: f32, deviation: f64) -> Transmitter {
        self.record(&[&[kind, from, to][..], &value.to_be_bytes(), &deviation.to_be_bytes()].concat())
    }

    fn record(mut self, bytes: &[u8]) -> Transmitter {
        self.records.extend(bytes);
        self.streams += 1;
        self
    }

    /// How many streams there are so far.
    pub fn streams(&self) -> usize {
        self.streams
    }

    /// The transmitter file. (Of more than 96 streams no end count fits; the 97th is refused before it is looked at.)
    pub fn file(&self) -> Vec<u8> {
        let mut file = self.records.clone();
        file.extend([0x04, self.streams.min(255) as u8]);
        file
    }

    /// The plant file that it becomes.
    pub fn plant(&self) -> Result<Vec<u8>, Refusal> {
        plant_from_transmitter(&self.file())
    }
}

/// The plant file that a transmitter file becomes.
///
/// ```
/// use wengeludo_balance::{plant_from_transmitter, Offices, Refusal, Transmitter};
/// let file = Transmitter::new(1).measured(0, 1, 100.0, 10.0).held(1, 0, 103.0, 5.0).file();
/// let sheet = Offices::default().draw(0, &plant_from_transmitter(&file)?)?;
/// assert_eq!(sheet.to_string(), "1 A 101\n2 A 101\ntotal 1 50 1 pass\n");
/// # Ok::<(), Refusal>(())
/// ```
pub fn plant_from_transmitter(file: &[u8]) -> Result<Vec<u8>, Refusal> {
    let mut plant = vec![0; FILE_SIZE];
    let written = plant_from_transmitter_into(file, &mut plant)?;
    plant.truncate(written);
    Ok(plant)
}

/// Writes the plant file that a transmitter file becomes into a slice of at least [`FILE_SIZE`] bytes, and says how many it
/// takes. The bytes past it keep their values; where the call is refused, all do. Nothing is allocated.
pub fn plant_from_transmitter_into(file: &[u8], plant: &mut [u8]) -> Result<usize, Refusal> {
    let mut written = 0;
    Refusal::check(raw::plant_from_transmitter(file, plant, &mut written))?;
    Ok(written)
}
