// SPDX-License-Identifier: LicenseRef-Wengeludo
//! Sheets drawn up elsewhere: the check, and numbers of the places.

use crate::raw;
use crate::refusal::Refusal;

/// The most places of a plant, the outside and 32 units; [`raw::place_numbers`] takes a slice of at least so many numbers.
pub const MAX_PLACES: usize = 33;

/// One number for each place, the outside first: with them a sheet is seen to show a flow of least cost, and no flow is looked for.
#[derive(Clone, Debug, Default, PartialEq, Eq, Hash)]
pub struct Certificate {
    /// The numbers of the places 0 to n, each from -10^18 to 10^18.
    pub numbers: Vec<i64>,
}

impl Certificate {
    /// Numbers with which every sheet of the plant file passes, and every sheet that differs from it only in showing another balanced
    /// flow in range of the same cost. The outside has 0. So a sheet can be kept with its certificate, and checked by whoever does
    /// not trust who drew it.
    ///
    /// # Errors
    ///
    /// The refusals of the file, then [`Refusal::NoFlow`], without its places.
    pub fn of(file: &[u8]) -> Result<Certificate, Refusal> {
        let mut numbers = vec![0; MAX_PLACES];
        let mut count = 0;
        Refusal::check(raw::place_numbers(file, &mut numbers, &mut count))?;
        numbers.truncate(count);
        Ok(Certificate { numbers })
    }
}

/// Checks a sheet, drawn up here or elsewhere, against its plant file. `Ok`: its classes, degrees, cost and verdict are those of the
/// plant, and its flows are balanced, in range and of least cost. Its number, its office and the kind of its total are free.
///
/// ```
/// use wengeludo_balance::{check, Certificate, Offices, Plant, Refusal};
/// let file = Plant::new(1).metered(0, 1, 10, 100).metered(1, 0, 10, 103).file()?;
/// let certificate = Certificate::of(&file)?;
/// assert_eq!(certificate.numbers.len(), 2);
/// let mut sheet = [0; 880];
/// let written = Offices::default().draw_into(0, &file, &mut sheet)?;
/// check(&file, &sheet[..written], &certificate)?;
///
/// // 102 on both streams costs the same as our 101, and passes with the same numbers; 103 costs more.
/// let with = |flow: u8| {
///     let mut other = sheet[..written].to_vec();
///     (other[8], other[17]) = (flow, flow);
///     other
/// };
/// check(&file, &with(102), &certificate)?;
/// assert_eq!(check(&file, &with(103), &certificate), Err(Refusal::RuleBroken));
/// # Ok::<(), Refusal>(())
/// ```
///
/// # Errors
///
/// The plant reader's refusals, then the sheet reader's, then [`Refusal::RuleBroken`].
pub fn check(plant: &[u8], sheet: &[u8], certificate: &Certificate) -> Result<(), Refusal> {
    Refusal::check(raw::check_sheet(plant, sheet, &certificate.numbers))
}

/// The first rule that a sheet breaks, in words, if [`check`] refuses it with [`Refusal::RuleBroken`]; else `None`. The words are those
/// of the C programs and of Python, from one file in C; they are not proved. With the feature `rules`.
///
/// ```
/// use wengeludo_balance::{broken_rule, Certificate, Offices, Plant};
/// let file = Plant::new(1).metered_within(0, 1, 10, 100, 0, 102).metered(1, 0, 10, 103).file()?;
/// let certificate = Certificate::of(&file)?;
/// let mut sheet = [0; 880];
/// let written = Offices::default().draw_into(0, &file, &mut sheet)?;
/// assert_eq!(broken_rule(&file, &sheet[..written], &certificate), None);
/// (sheet[8], sheet[17]) = (103, 103);
/// let words = broken_rule(&file, &sheet[..written], &certificate);
/// assert_eq!(words.as_deref(), Some("stream 1: its flow 103 is outside its range 0 to 102"));
/// # Ok::<(), wengeludo_balance::Refusal>(())
/// ```
#[cfg(feature = "rules")]
pub fn broken_rule(plant: &[u8], sheet: &[u8], certificate: &Certificate) -> Option<String> {
    match check(plant, sheet, certificate) {
        Err(Refusal::RuleBroken) => raw::broken_rule(plant, sheet, &certificate.numbers),
        _ => None,
    }
}
