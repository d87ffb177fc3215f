// SPDX-License-Identifier: LicenseRef-Wengeludo
//! Plant files, read and written by the definition.

/// A stream; weight and reading where it is metered, and the range, low and high, where it has one: an unmetered stream's
/// counts for nothing.
#[derive(Clone, Debug, Default, PartialEq, Eq)]
pub struct Stream {
    pub from: usize,
    pub to: usize,
    pub meter: Option<(u16, i32)>,
    pub range: Option<(i32, i32)>,
}

impl Stream {
    /// The range, if the stream is metered and has one.
    pub fn limits(&self) -> Option<(i64, i64)> {
        self.meter.and(self.range).map(|(low, high)| (low.into(), high.into()))
    }
}

/// A plant.
#[derive(Clone, Debug, PartialEq, Eq)]
pub struct Listed {
    pub units: u8,
    pub streams: Vec<Stream>,
}

/// The number of a refusal.
pub type Fault = u8;

fn fault(units: u8, s: &Stream) -> Result<(), Fault> {
    if s.from > usize::from(units) || s.to > usize::from(units) {
        return Err(7);
    }
    if s.from == s.to {
        return Err(8);
    }
    if let Some((weight, reading)) = s.meter {
        if !(1..=1000).contains(&weight) {
            return Err(9);
        }
        if !(-4_000_000..=4_000_000).contains(&reading) {
            return Err(10);
        }
    }
    if let Some((low, high)) = s.limits() {
        if low > high || low < -2_000_000_000 || high > 2_000_000_000 {
            return Err(18);
        }
    }
    Ok(())
}

/// Hands out the bytes of a file one by one, and refusal 3 past its end.
pub type Next<'a> = dyn FnMut() -> Result<u8, Fault> + 'a;

/// What plant files and transmitter files share: a site, records of these kinds, an end. The rest of a record is read by `record`,
/// which is handed its kind and the units.
pub fn read_records(
    file: &[u8],
    kinds: &[u8],
    record: impl Fn(u8, u8, &mut Next) -> Result<Stream, Fault>,
) -> Result<Listed, Fault> {
    let mut rest = file.iter().copied();
    let mut next = || rest.next().ok_or(3);
    if next()? != 1 {
        return Err(4);
    }
    let units = next()?;
    if !(1..=32).contains(&units) {
        return Err(6);
    }
    let mut streams = Vec::new();
    loop {
        let kind = next()?;
        if kind == 4 {
            let listed = next()?;
            if usize::from(listed) != streams.len() {
                return Err(11);
            }
            return if next().is_ok() { Err(12) } else { Ok(Listed { units, streams }) };
        }
        if !kinds.contains(&kind) {
            return Err(4);
        }
        if streams.len() == 96 {
            return Err(5);
        }
        streams.push(record(kind, units, &mut next)?);
    }
}

/// The plant that a file lists.
pub fn read(file: &[u8]) -> Result<Listed, Fault> {
    read_records(file, &[2, 3, 6], |kind, units, next| {
        let (from, to) = (usize::from(next()?), usize::from(next()?));
        let mut s = Stream { from, to, ..Stream::default() };
        if kind != 3 {
            let weight = u16::from_be_bytes([next()?, next()?]);
            s.meter = Some((weight, i32::from_be_bytes([next()?, next()?, next()?, next()?])));
        }
        if kind == 6 {
            let low = i32::from_be_bytes([next()?, next()?, next()?, next()?]);
            s.range = Some((low, i32::from_be_bytes([next()?, next()?, next()?, next()?])));
        }
        fault(units, &s)?;
        Ok(s)
    })
}

/// The bytes of a plant's file, whatever its values.
pub fn file_of(plant: &Listed) -> Vec<u8> {
    let mut file = vec![1, plant.units];
    for s in &plant.streams {
        file.push(match (s.meter, s.range) {
            (None, _) => 3,
            (Some(_), None) => 2,
            (Some(_), Some(_)) => 6,
        });
        file.push(s.from as u8);
        file.push(s.to as u8);
        if let Some((weight, reading)) = s.meter {
            file.extend(weight.to_be_bytes());
            file.extend(reading.to_be_bytes());
            if let Some((low, high)) = s.range {
                file.extend(low.to_be_bytes());
                file.extend(high.to_be_bytes());
            }
        }
    }
    file.push(4);
    file.push(plant.streams.len() as u8);
    file
}

/// The plant writer: `None` stands for a stream that is not there whole.
pub fn write(units: u8, count: usize, streams: &[Option<Stream>], slice: &[u8]) -> Result<Vec<u8>, Fault> {
    if slice.len() < 1636 {
        return Err(1);
    }
    if !(1..=32).contains(&units) {
        return Err(6);
    }
    if count > 96 {
        return Err(5);
    }
    let mut plant = Listed { units, streams: Vec::new() };
    for s in &streams[..count] {
        let s = s.clone().ok_or(8)?;
        fault(units, &s)?;
        plant.streams.push(s);
    }
    Ok(file_of(&plant))
}
