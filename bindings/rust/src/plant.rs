// SPDX-License-Identifier: LicenseRef-Wengeludo
//! A builder for plants.

use crate::raw::{self, Parts, PartsRoom};
use crate::refusal::Refusal;
use crate::{FILE_SIZE, MAX_STREAMS};

/// A plant: its units, numbered from 1, and its streams. Place 0 is the outside. Any values are taken here; what is
/// wrong with them is said when the file is written.
///
/// ```
/// use wengeludo_balance::{Plant, Refusal};
/// let plant = Plant::new(1).metered(0, 1, 10, 7);
/// assert_eq!(plant.file()?, [1, 1, 2, 0, 1, 0, 10, 0, 0, 0, 7, 4, 1]);
/// assert_eq!(Plant::new(1).unmetered(0, 2).file(), Err(Refusal::Place));
/// # Ok::<(), Refusal>(())
/// ```
#[derive(Clone, Debug, Default, PartialEq, Eq)]
pub struct Plant {
    units: u8,
    from: Vec<u8>,
    to: Vec<u8>,
    metered: Vec<u8>,
    weight: Vec<u16>,
    reading: Vec<i32>,
    ranged: Vec<u8>,
    low: Vec<i32>,
    high: Vec<i32>,
}

/// A stream of a plant.
#[derive(Clone, Copy, Debug, PartialEq, Eq)]
pub struct Stream {
    /// Where it comes from; 0 is the outside.
    pub from: u8,
    /// Where it goes.
    pub to: u8,
    /// Its meter's weight and reading, None if it is unmetered.
    pub meter: Option<(u16, i32)>,
    /// The least and the greatest flow in its range, None if it has none.
    pub range: Option<(i32, i32)>,
}

impl Plant {
    /// A plant without streams.
    pub fn new(units: u8) -> Plant {
        Plant { units, ..Plant::default() }
    }

    /// The plant of a plant file: what [`Plant::file`] writes is read as the plant itself, and a file that is read is written again
    /// byte for byte.
    ///
    /// ```
    /// use wengeludo_balance::{Plant, Refusal};
    /// let plant = Plant::new(1).metered_within(0, 1, 10, 7, -1, 9).unmetered(1, 0);
    /// assert_eq!(Plant::from_file(&plant.file()?)?, plant);
    /// assert_eq!(Plant::from_file(&[1, 1]), Err(Refusal::FileEnds));
    /// # Ok::<(), Refusal>(())
    /// ```
    pub fn from_file(file: &[u8]) -> Result<Plant, Refusal> {
        let (mut units, mut count) = (0, 0);
        let mut plant = Plant::with_room(MAX_STREAMS);
        let room = PartsRoom {
            from: &mut plant.from,
            to: &mut plant.to,
            metered: &mut plant.metered,
            weight: &mut plant.weight,
            reading: &mut plant.reading,
            ranged: &mut plant.ranged,
            low: &mut plant.low,
            high: &mut plant.high,
        };
        Refusal::check(raw::read_plant(file, &mut units, &mut count, room))?;
        plant.units = units;
        plant.cut(count);
        Ok(plant)
    }

    /// So many empty streams.
    fn with_room(count: usize) -> Plant {
        let bytes = vec![0; count];
        let numbers = vec![0; count];
        Plant {
            units: 0,
            from: bytes.clone(),
            to: bytes.clone(),
            metered: bytes.clone(),
            weight: vec![0; count],
            reading: numbers.clone(),
            ranged: bytes,
            low: numbers.clone(),
            high: numbers,
        }
    }

    /// Keeps the first so many streams.
    fn cut(&mut self, count: usize) {
        for bytes in [&mut self.from, &mut self.to, &mut self.metered, &mut self.ranged] {
            bytes.truncate(count);
        }
        self.weight.truncate(count);
        for numbers in [&mut self.reading, &mut self.low, &mut self.high] {
            numbers.truncate(count);
        }
    }

    /// How many units there are.
    pub fn units(&self) -> u8 {
        self.units
    }

    /// Stream k, counted from 0, by its parts; None past the last.
    pub fn stream_at(&self, k: usize) -> Option<Stream> {
        Some(Stream {
            from: *self.from.get(k)?,
            to: *self.to.get(k)?,
            meter: (*self.metered.get(k)? != 0).then(|| (self.weight[k], self.reading[k])),
            range: (*self.ranged.get(k)? != 0).then(|| (self.low[k], self.high[k])),
        })
    }

    /// Adds a metered stream: from, to, weight (1,000 divided by the variance, 1 to 1,000), reading in kg per hour.
    pub fn metered(self, from: u8, to: u8, weight: u16, reading: i32) -> Plant {
        self.stream(from, to, Some((weight, reading)), None)
    }

    /// Adds a metered stream whose corrected flow keeps within a range, from low to high, both included; each is from
    /// -2,000,000,000 to 2,000,000,000, and low is at most high.
    ///
    /// ```
    /// use wengeludo_balance::{Offices, Plant, Record, Refusal};
    /// let plant = Plant::new(1).metered_within(0, 1, 10, 100, 0, 98).metered(1, 0, 10, 104);
    /// assert_eq!(Offices::default().draw(0, &plant.file()?)?.records, [Record::Adjusted(98), Record::Adjusted(98)]);
    /// let file = Plant::new(1).metered_within(0, 1, 10, 7, -1, 9).file()?;
    /// assert_eq!(file, [1, 1, 6, 0, 1, 0, 10, 0, 0, 0, 7, 255, 255, 255, 255, 0, 0, 0, 9, 4, 1]);
    /// assert_eq!(Plant::new(1).metered_within(0, 1, 10, 7, 9, 8).file(), Err(Refusal::Range));
    /// # Ok::<(), Refusal>(())
    /// ```
    pub fn metered_within(self, from: u8, to: u8, weight: u16, reading: i32, low: i32, high: i32) -> Plant {
        self.stream(from, to, Some((weight, reading)), Some((low, high)))
    }

    /// Adds an unmetered stream.
    pub fn unmetered(self, from: u8, to: u8) -> Plant {
        self.stream(from, to, None, None)
    }

    fn stream(mut self, from: u8, to: u8, meter: Option<(u16, i32)>, range: Option<(i32, i32)>) -> Plant {
        let (weight, reading) = meter.unwrap_or_default();
        let (low, high) = range.unwrap_or_default();
        self.from.push(from);
        self.to.push(to);
        self.metered.push(meter.is_some().into());
        self.weight.push(weight);
        self.reading.push(reading);
        self.ranged.push(range.is_some().into());
        self.low.push(low);
        self.high.push(high);
        self
    }

    /// How many streams there are so far.
    pub fn streams(&self) -> usize {
        self.from.len()
    }

    /// The plant's file.
    pub fn file(&self) -> Result<Vec<u8>, Refusal> {
        let mut file = vec![0; FILE_SIZE];
        let written = self.write_into(&mut file)?;
        file.truncate(written);
        Ok(file)
    }

    /// Writes the plant's file into a slice of at least [`FILE_SIZE`] bytes, and says how many it takes. The bytes past it
    /// keep their values; where the call is refused, all do. Nothing is allocated.
    pub fn write_into(&self, file: &mut [u8]) -> Result<usize, Refusal> {
        let parts = Parts {
            units: self.units,
            count: self.from.len(),
            from: &self.from,
            to: &self.to,
            metered: &self.metered,
            weight: &self.weight,
            reading: &self.reading,
            ranged: &self.ranged,
            low: &self.low,
            high: &self.high,
        };
        let mut written = 0;
        Refusal::check(raw::write_plant(parts, file, &mut written))?;
        Ok(written)
    }
}
