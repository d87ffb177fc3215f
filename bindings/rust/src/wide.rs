// SPDX-License-Identifier: LicenseRef-Wengeludo
//! Flows found elsewhere, of plants with wide weights and readings: the check.

use crate::raw::{self, WideParts};
use crate::refusal::Refusal;

/// The greatest weight of a [`WidePlant`], 2^40.
pub const MAX_WIDE_WEIGHT: u64 = 1 << 40;

/// The greatest reading of a [`WidePlant`] in size, 2^40.
pub const MAX_WIDE_READING: i64 = 1 << 40;

/// The greatest flow in size that passes, 2^55.
pub const MAX_WIDE_FLOW: i64 = 1 << 55;

/// The greatest number of a place in size with which a flow passes, 2^61.
pub const MAX_WIDE_NUMBER: i64 = 1 << 61;

/// A plant with wide weights and readings: its units, numbered from 1, and its streams. Place 0 is the outside. Any values are taken
/// here; what is wrong with them is said by the check. It has no file.
///
/// ```
/// use wengeludo_balance::{Refusal, WidePlant};
/// // 30 and 10: the first meter is trusted more. At 101 on both a unit more costs 30 * 3 - 10 * 5, a unit less 10 * 7 - 30.
/// let plant = WidePlant::new(1).metered(0, 1, 30, 100).metered(1, 0, 10, 104);
/// plant.check(&[101, 101], &[0, 60])?;
/// assert_eq!(plant.check(&[102, 102], &[0, 60]), Err(Refusal::RuleBroken)); // costs more
/// assert_eq!(plant.check(&[101, 102], &[0, 60]), Err(Refusal::RuleBroken)); // does not balance
/// assert_eq!(plant.check(&[101, 101], &[0, 91]), Err(Refusal::RuleBroken)); // a number that does not show it
/// # Ok::<(), Refusal>(())
/// ```
#[derive(Clone, Debug, Default, PartialEq, Eq)]
pub struct WidePlant {
    units: u8,
    from: Vec<u8>,
    to: Vec<u8>,
    metered: Vec<u8>,
    weight: Vec<u64>,
    reading: Vec<i64>,
    ranged: Vec<u8>,
    low: Vec<i64>,
    high: Vec<i64>,
}

impl WidePlant {
    /// A plant without streams.
    pub fn new(units: u8) -> WidePlant {
        WidePlant { units, ..WidePlant::default() }
    }

    /// Adds a metered stream: from, to, weight (1 to 2^40), reading (-2^40 to 2^40).
    pub fn metered(self, from: u8, to: u8, weight: u64, reading: i64) -> WidePlant {
        self.stream(from, to, Some((weight, reading)), None)
    }

    /// Adds a metered stream whose flow keeps within a range, from low to high, both included, of any size; low is at most high.
    pub fn metered_within(self, from: u8, to: u8, weight: u64, reading: i64, low: i64, high: i64) -> WidePlant {
        self.stream(from, to, Some((weight, reading)), Some((low, high)))
    }

    /// Adds an unmetered stream.
    pub fn unmetered(self, from: u8, to: u8) -> WidePlant {
        self.stream(from, to, None, None)
    }

    fn stream(mut self, from: u8, to: u8, meter: Option<(u64, i64)>, range: Option<(i64, i64)>) -> WidePlant {
        let (weight, reading) = meter.unwrap_or_default();
        let (low, high) = range.unwrap_or_default();
        self.from.push(from);
        self.to.push(to);
        self.metered.push(meter.is_some().into());
        self.weight.push(weight);
        self.reading.push(reading);
        self.ranged.push(range.is_some().into());
        self.low.push(low);
        self.high.push(high);
        self
    }

    /// Checks a flow for each stream with a number for each place, the outside first. `Ok`: the flow is balanced and in range, no other
    /// whole flow that is costs less, and none in fractions does by more than a quarter of the summed weights. The cost is the sum of
    /// weight times (flow less reading) squared over the metered streams. A flow of least cost whose numbers lie past 2^61 is refused.
    ///
    /// # Errors
    ///
    /// [`Refusal::SliceTooShort`] where flows or numbers are missing, [`Refusal::Units`], [`Refusal::TooManyStreams`], of the first stream
    /// with a fault [`Refusal::Place`], [`Refusal::SamePlace`], [`Refusal::Weight`], [`Refusal::Reading`] or [`Refusal::Range`]; then
    /// [`Refusal::RuleBroken`]. Flows and numbers past those that are needed are not looked at.
    pub fn check(&self, flow: &[i64], numbers: &[i64]) -> Result<(), Refusal> {
        Refusal::check(raw::check_flow(self.parts(), flow, numbers))
    }

    fn parts(&self) -> WideParts<'_> {
        WideParts {
            units: self.units,
            count: self.from.len(),
            from: &self.from,
            to: &self.to,
            metered: &self.metered,
            weight: &self.weight,
            reading: &self.reading,
            ranged: &self.ranged,
            low: &self.low,
            high: &self.high,
        }
    }
}
