// SPDX-License-Identifier: LicenseRef-Wengeludo
//! Inputs, drawn from a seed.

mod ranges;
mod splitmix;

pub use splitmix::Draw;

use crate::reference::{file_of, read, sheet_bytes, sheet_of, Kept, Listed, Stream};
use std::fmt;

/// A sheet call: the plant file, the office, the last sheet numbers that are lent, the slice.
#[derive(Clone, Debug, PartialEq, Eq)]
pub struct Call {
    pub file: Vec<u8>,
    pub office: u8,
    pub lasts: Vec<u32>,
    pub slice: Vec<u8>,
}

impl fmt::Display for Call {
    fn fmt(&self, f: &mut fmt::Formatter<'_>) -> fmt::Result {
        let hex: Vec<String> = self.file.iter().map(|b| format!("{b:02X}")).collect();
        writeln!(f, "office {}, last sheet numbers {:?}", self.office, self.lasts)?;
        writeln!(f, "slice of {} bytes, file of {} bytes:", self.slice.len(), self.file.len())?;
        writeln!(f, "{}", hex.join(" "))?;
        if let Ok(plant) = read(&self.file) {
            writeln!(f, "{} units", plant.units)?;
            for (k, s) in plant.streams.iter().enumerate() {
                write!(f, "stream {}: {} to {}, ", k + 1, s.from, s.to)?;
                match (s.meter, s.range) {
                    (None, _) => writeln!(f, "unmetered")?,
                    (Some((w, r)), None) => writeln!(f, "weight {w}, reading {r}")?,
                    (Some((w, r)), Some((low, high))) => writeln!(f, "weight {w}, reading {r}, from {low} to {high}")?,
                }
            }
        }
        Ok(())
    }
}

/// A call of the plant writer.
#[derive(Clone, Debug, PartialEq, Eq)]
pub struct Write {
    pub units: u8,
    pub count: usize,
    pub from: Vec<u8>,
    pub to: Vec<u8>,
    pub metered: Vec<u8>,
    pub weight: Vec<u16>,
    pub reading: Vec<i32>,
    pub ranged: Vec<u8>,
    pub low: Vec<i32>,
    pub high: Vec<i32>,
    pub slice: Vec<u8>,
}

impl Write {
    /// The lengths of the parts.
    pub fn lengths(&self) -> [usize; 8] {
        let w = self;
        [w.from.len(), w.to.len(), w.metered.len(), w.weight.len(), w.reading.len(), w.ranged.len(), w.low.len(), w.high.len()]
    }
}

/// A call of the sheet reader.
#[derive(Clone, Debug, PartialEq, Eq)]
pub struct Reopen {
    pub bytes: Vec<u8>,
    pub kinds: Vec<u8>,
    pub flows: Vec<i64>,
}

impl Draw {
    pub fn bytes(&mut self, n: usize) -> Vec<u8> {
        (0..n).map(|_| self.bits() as u8).collect()
    }

    /// A plant within its limits, with ranges or without.
    pub fn plant(&mut self) -> Listed {
        let mut plant = if self.below(20) == 0 { self.small_header() } else { self.plant_without_ranges() };
        if self.below(2) == 0 {
            ranges::put(self, &mut plant);
        }
        plant
    }

    /// A small header: a few meters of one weight, by which the cost comes near its critical value.
    fn small_header(&mut self) -> Listed {
        let (outlets, apart) = (self.between(1, 4), self.between(3, 20));
        // Whole numbers share what the meters are apart, some of them one more: the cost at weight 1.
        let (share, more) = (apart / (outlets + 1), apart % (outlets + 1));
        let least = (outlets + 1) * share * share + more * (2 * share + 1);
        let weight = (3841 / least + self.between(-2, 4)).clamp(1, 1000) as u16;
        let streams = (0..=outlets)
            .map(|k| {
                let reading = if k == 0 { 20 * outlets - apart } else { 20 };
                Stream { from: usize::from(k > 0), to: usize::from(k == 0), meter: Some((weight, reading as i32)), range: None }
            })
            .collect();
        Listed { units: 1, streams }
    }

    /// A plant within its limits: small ones mostly, some of the greatest size.
    fn plant_without_ranges(&mut self) -> Listed {
        let (units, most) = match self.below(100) {
            0 => (32, 96),
            1..=4 => (self.between(8, 32), 96),
            5..=24 => (self.between(3, 16), 40),
            25..=59 => (self.between(2, 8), 16),
            _ => (self.between(1, 4), 7),
        };
        let count = if self.below(20) == 0 { most } else { self.between(0, most) };
        let unmetered = [0, 10, 30, 50, 80][self.below(5)];
        let spread = [1, 3, 20, 1000, 4_000_000][self.below(5)];
        let middle = if spread == 4_000_000 { 0 } else { [0, 100, -50, 900_000][self.below(4)] };
        let weights = [(10, 10), (1, 1), (1, 3), (1, 1000), (1000, 1000), (9, 11)][self.below(6)];
        // Readings that lie near a balanced flow, or anywhere in the spread.
        let level: Option<Vec<i64>> = (self.below(3) == 0).then(|| (0..=units).map(|_| self.between(-200, 200)).collect());
        let edge = self.below(12) == 0;
        let near = self.below(4) == 0;
        let streams = (0..count)
            .map(|k| {
                let from = self.between(0, units);
                let mut to = if near { (from + self.between(1, 2)) % (units + 1) } else { self.between(0, units) };
                if to == from {
                    to = (from + 1) % (units + 1);
                }
                let meter = (self.below(100) >= unmetered).then(|| {
                    let reading = match &level {
                        Some(level) => level[from as usize] - level[to as usize] + self.between(-2, 2) + k % 2,
                        None => middle + self.between(-spread, spread),
                    };
                    let reading =
                        if edge { [-4_000_000, 4_000_000, 0][self.below(3)] } else { reading.clamp(-4_000_000, 4_000_000) };
                    (self.between(weights.0, weights.1) as u16, reading as i32)
                });
                Stream { from: from as usize, to: to as usize, meter, range: None }
            })
            .collect();
        Listed { units: units as u8, streams }
    }

    /// A file with something wrong in it, mostly.
    fn damaged(&mut self) -> Vec<u8> {
        let mut plant = self.plant();
        match self.below(6) {
            0 => {
                // One value out of its range, or at its edge.
                if plant.streams.is_empty() {
                    plant.units = [0, 33, 255][self.below(3)];
                } else {
                    let k = self.below(plant.streams.len());
                    let (units, s) = (usize::from(plant.units), &mut plant.streams[k]);
                    match self.below(8) {
                        0 => s.from = units + self.below(2),
                        1 => s.to = units + self.below(2),
                        2 => s.to = s.from,
                        3 => s.meter = Some(([0, 1, 1000, 1001, 65535][self.below(5)], 5)),
                        4 => {
                            s.meter = Some((5, [-4_000_001, -4_000_000, 4_000_000, 4_000_001, i32::MIN, i32::MAX][self.below(6)]))
                        }
                        5 | 6 => {
                            s.meter = s.meter.or(Some((1, 0)));
                            s.range = Some(ranges::at_an_edge(self));
                        }
                        _ => plant.units = [0, 1, 32, 33][self.below(4)],
                    }
                }
                file_of(&plant)
            }
            1 => {
                // Too many streams, or as many as there may be.
                plant.units = plant.units.max(2);
                let count = 95 + self.below(4);
                let (metered, ranged) = (self.below(3) > 0, self.below(2) == 0);
                let (meter, range) = (metered.then_some((1, 7)), (metered && ranged).then_some((-3, 7)));
                plant.streams = (0..count).map(|_| Stream { from: 1, to: 2, meter, range }).collect();
                let mut file = file_of(&plant);
                if self.below(3) == 0 {
                    let n = file.len() - self.below(20);
                    file.truncate(n);
                }
                file
            }
            2 => {
                let file = file_of(&plant);
                let n = self.below(file.len());
                file[..n].to_vec()
            }
            3 => {
                let mut file = file_of(&plant);
                let more = 1 + self.below(9);
                file.extend(self.bytes(more));
                file
            }
            4 => {
                let mut file = file_of(&plant);
                for _ in 0..=self.below(3) {
                    let at = self.below(file.len());
                    file[at] = if self.below(2) == 0 { self.below(8) as u8 } else { self.bits() as u8 };
                }
                file
            }
            _ => {
                // The end's count; or bytes of any kind.
                if self.below(2) == 0 {
                    let mut file = file_of(&plant);
                    let end = file.len() - 1;
                    file[end] = file[end].wrapping_add(1 + self.below(3) as u8);
                    file
                } else {
                    let n = self.below(40);
                    (0..n).map(|_| if self.below(2) == 0 { self.below(5) as u8 } else { self.bits() as u8 }).collect()
                }
            }
        }
    }

    pub fn call(&mut self) -> Call {
        let file = if self.below(4) == 0 { self.damaged() } else { file_of(&self.plant()) };
        let length = match self.below(20) {
            0 => 879,
            1 => self.below(880),
            2..=9 => 880 + self.below(200),
            _ => 880,
        };
        let lent = match self.below(40) {
            0 => 7,
            1 => self.below(8),
            2..=9 => 9 + self.below(4),
            _ => 8,
        };
        let lasts = (0..lent).map(|_| self.last()).collect();
        Call { file, office: self.office(), lasts, slice: self.bytes(length) }
    }

    /// An office, now and then one that there is not.
    pub fn office(&mut self) -> u8 {
        match self.below(40) {
            0 => 8,
            1 => 8 + self.below(248) as u8,
            _ => self.below(8) as u8,
        }
    }

    /// A last sheet number.
    pub fn last(&mut self) -> u32 {
        match self.below(20) {
            0 => u32::MAX,
            1 => u32::MAX - 1,
            2..=9 => self.bits() as u32,
            _ => 0,
        }
    }

    pub fn write(&mut self) -> Write {
        let file = if self.below(2) == 0 { file_of(&self.plant()) } else { self.damaged() };
        let plant = read(&file).unwrap_or_else(|_| self.plant());
        let mut w = Write {
            units: plant.units,
            count: plant.streams.len(),
            from: plant.streams.iter().map(|s| s.from as u8).collect(),
            to: plant.streams.iter().map(|s| s.to as u8).collect(),
            metered: plant.streams.iter().map(|s| u8::from(s.meter.is_some())).collect(),
            weight: plant.streams.iter().map(|s| s.meter.map_or(0, |m| m.0)).collect(),
            reading: plant.streams.iter().map(|s| s.meter.map_or(0, |m| m.1)).collect(),
            ranged: plant.streams.iter().map(|s| u8::from(s.range.is_some())).collect(),
            low: plant.streams.iter().map(|s| s.range.map_or(0, |r| r.0)).collect(),
            high: plant.streams.iter().map(|s| s.range.map_or(0, |r| r.1)).collect(),
            slice: Vec::new(),
        };
        // What stands for a range that counts for nothing, for want of a range or of a meter.
        for k in 0..w.count {
            if w.ranged[k] == 0 && self.below(4) == 0 {
                (w.low[k], w.high[k]) = (self.bits() as i32, self.bits() as i32);
                w.ranged[k] = if w.metered[k] == 0 { self.below(3) as u8 } else { 0 };
            }
        }
        let length = match self.below(10) {
            0 => 1635,
            1 => self.below(1636),
            2..=5 => 1636 + self.below(100),
            _ => 1636,
        };
        w.slice = self.bytes(length);
        // Elements past the count, a slice too short, another count, one value changed.
        if self.below(3) == 0 {
            let more = self.below(120);
            w.from.extend(self.bytes(more));
            w.to.extend(self.bytes(more));
            w.metered.extend(self.bytes(more));
            w.ranged.extend(self.bytes(more));
            for _ in 0..more {
                w.weight.push(self.bits() as u16);
                w.reading.push(self.bits() as i32);
                w.low.push(self.bits() as i32);
                w.high.push(self.bits() as i32);
            }
        }
        if self.below(4) == 0 {
            let n = self.below(w.from.len() + 1);
            match self.below(8) {
                0 => w.from.truncate(n),
                1 => w.to.truncate(n),
                2 => w.metered.truncate(n),
                3 => w.weight.truncate(n),
                4 => w.reading.truncate(n),
                5 => w.ranged.truncate(n),
                6 => w.low.truncate(n),
                _ => w.high.truncate(n),
            }
        }
        if self.below(6) == 0 {
            w.count = [0, 1, 95, 96, 97, 255, 256, 352, usize::MAX][self.below(9)];
        }
        if self.below(3) == 0 && !w.from.is_empty() {
            let k = self.below(w.from.len());
            match self.below(8) {
                0 => w.from[k] = self.bits() as u8,
                1 if k < w.to.len() => w.to[k] = self.below(34) as u8,
                2 if k < w.metered.len() => w.metered[k] = self.bits() as u8,
                3 if k < w.weight.len() => w.weight[k] = [0, 1, 1000, 1001, 65535][self.below(5)],
                4 if k < w.reading.len() => {
                    w.reading[k] = [-4_000_001, -4_000_000, 4_000_000, 4_000_001, i32::MIN][self.below(5)]
                }
                5 if k < w.ranged.len() => w.ranged[k] = self.bits() as u8,
                6 if k < w.low.len().min(w.high.len()) => (w.low[k], w.high[k]) = ranges::at_an_edge(self),
                _ => w.units = [0, 1, 32, 33, 255][self.below(5)],
            }
        }
        w
    }

    /// What a sheet shows, whether or not it is one of a plant: mostly within its limits.
    fn shown(&mut self) -> Kept {
        let count = match self.below(12) {
            0 => 95 + self.below(4),
            1 => self.below(97),
            _ => self.below(8),
        };
        let blanks = [0, 30, 100][self.below(3)];
        let streams = (0..count)
            .map(|_| {
                let flow = match self.below(4) {
                    0 => [0, -1, i64::MIN, i64::MAX][self.below(4)],
                    1 => self.bits() as i64,
                    _ => self.between(-300, 300),
                };
                if self.below(100) < blanks {
                    (0x14, 0)
                } else {
                    (0x11 + self.below(3) as u8, flow)
                }
            })
            .collect();
        let most = if self.below(4) == 0 { 7 } else { 5 };
        let degrees = [0, 1, 2, 31, 32, 33, 255][self.below(most)];
        let verdict = match self.below(6) {
            0 => self.below(5) as u8,
            1 => self.bits() as u8,
            _ if degrees == 0 => 2,
            _ => [0, 1, 3][self.below(3)],
        };
        let number = if self.below(12) == 0 { 0 } else { [1, u32::MAX, self.bits() as u32][self.below(3)] };
        let kind = 0x1E + self.below(2) as u8;
        let office = match (kind, self.below(12)) {
            (0x1F, _) => 0,
            (_, 0) => self.bits() as u8,
            (_, 1) => 8,
            _ => self.below(8) as u8,
        };
        Kept { streams, kind, office, number, cost: [0, u64::MAX, self.bits()][self.below(3)], degrees, verdict }
    }

    /// A kept sheet, of a plant or drawn; half of them damaged; and the slices.
    pub fn reopen(&mut self) -> Reopen {
        let mut bytes = if self.below(4) == 0 {
            let plant = self.plant();
            let plant = if plant.streams.len() > 12 { Listed { units: 1, streams: Vec::new() } } else { plant };
            match sheet_of(&plant, self.below(8) as u8, 1 + self.below(1000) as u32) {
                Ok(sheet) => sheet,
                Err(_) => sheet_bytes(&self.shown()),
            }
        } else {
            sheet_bytes(&self.shown())
        };
        match self.below(8) {
            0 => bytes.truncate(self.below(bytes.len())),
            1 => {
                let more = 1 + self.below(20);
                bytes.extend(self.bytes(more));
            }
            2 => {
                for _ in 0..=self.below(3) {
                    let at = self.below(bytes.len());
                    bytes[at] = if self.below(2) == 0 { 0x10 + self.below(18) as u8 } else { self.bits() as u8 };
                }
            }
            3 => {
                let n = self.below(40);
                bytes =
                    (0..n).map(|_| if self.below(2) == 0 { 0x10 + self.below(17) as u8 } else { self.bits() as u8 }).collect();
            }
            _ => {}
        }
        let mut length = || match self.below(20) {
            0 => 95,
            1 => self.below(96),
            2..=5 => 97 + self.below(30),
            _ => 96,
        };
        let (kinds, flows) = (length(), length());
        let kinds = self.bytes(kinds);
        Reopen { bytes, kinds, flows: (0..flows).map(|_| self.bits() as i64).collect() }
    }
}
