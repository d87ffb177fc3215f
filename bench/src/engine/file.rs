// SPDX-License-Identifier: LicenseRef-Wengeludo
//! The plant file, read.

use super::Site;
use crate::plants::{Stream, MAX_RANGE, MAX_READING, MAX_STREAMS, MAX_UNITS, MAX_WEIGHT};

/// The plant that a file lists, or a refusal's number.
pub fn read(file: &[u8]) -> Result<Site, u8> {
    let units = read_units(file)?;
    let mut site = Site { units: units.into(), count: 0, streams: [Stream::default(); MAX_STREAMS] };
    let mut rest = &file[2..];
    loop {
        let (&kind, body) = rest.split_first().ok_or(3)?;
        let (stream, size) = match kind {
            0x02 => (metered(bytes_of(site.count, body)?), 8),
            0x03 => (unmetered(bytes_of(site.count, body)?), 2),
            0x06 => (ranged(bytes_of(site.count, body)?), 16),
            0x04 => {
                end(site.count, body)?;
                return Ok(site);
            }
            _ => return Err(4),
        };
        check(units, &stream)?;
        site.streams[site.count] = stream;
        site.count += 1;
        rest = &body[size..];
    }
}

fn read_units(file: &[u8]) -> Result<u8, u8> {
    match file {
        [] => Err(3),
        [kind, ..] if *kind != 0x01 => Err(4),
        [_] => Err(3),
        [_, units, ..] if *units == 0 || usize::from(*units) > MAX_UNITS => Err(6),
        [_, units, ..] => Ok(*units),
    }
}

/// The body of a stream record after so many streams.
fn bytes_of<const SIZE: usize>(count: usize, body: &[u8]) -> Result<&[u8; SIZE], u8> {
    if count >= MAX_STREAMS {
        return Err(5);
    }
    body.get(..SIZE).and_then(|b| b.try_into().ok()).ok_or(3)
}

fn metered(&[from, to, w1, w0, r3, r2, r1, r0]: &[u8; 8]) -> Stream {
    let weight = u16::from_be_bytes([w1, w0]).into();
    let reading = i32::from_be_bytes([r3, r2, r1, r0]).into();
    Stream::metered(from, to, weight, reading)
}

fn unmetered(&[from, to]: &[u8; 2]) -> Stream {
    Stream::unmetered(from, to)
}

fn ranged(&[from, to, w1, w0, r3, r2, r1, r0, l3, l2, l1, l0, h3, h2, h1, h0]: &[u8; 16]) -> Stream {
    let low = i32::from_be_bytes([l3, l2, l1, l0]).into();
    let high = i32::from_be_bytes([h3, h2, h1, h0]).into();
    metered(&[from, to, w1, w0, r3, r2, r1, r0]).within(low, high)
}

/// The refusals of a stream's values.
fn check(units: u8, s: &Stream) -> Result<(), u8> {
    if s.from > units || s.to > units {
        return Err(7);
    }
    if s.from == s.to {
        return Err(8);
    }
    if s.metered && !(1..=MAX_WEIGHT).contains(&s.weight) {
        return Err(9);
    }
    if s.metered && !(-MAX_READING..=MAX_READING).contains(&s.reading) {
        return Err(10);
    }
    if s.ranged && (s.low > s.high || s.low < -MAX_RANGE || s.high > MAX_RANGE) {
        return Err(18);
    }
    Ok(())
}

fn end(count: usize, body: &[u8]) -> Result<(), u8> {
    let (&listed, after) = body.split_first().ok_or(3)?;
    if usize::from(listed) != count {
        return Err(11);
    }
    if !after.is_empty() {
        return Err(12);
    }
    Ok(())
}
