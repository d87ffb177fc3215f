// SPDX-License-Identifier: LicenseRef-Wengeludo
//! Meters worth a visit.

use crate::{raw, Refusal, MAX_STREAMS};

/// A stream of the list: what the balance costs at least without its meter.
#[derive(Clone, Copy, Debug, PartialEq, Eq, Hash)]
pub struct Visit {
    /// The stream's number, counted from 1.
    pub stream: u8,
    /// The least cost with that stream, and its range, made unmetered; [`u64::MAX`] stands for that and all above.
    pub cost: u64,
}

/// For every A stream of a plant file the least cost with that stream, and its range, made unmetered: the list by that cost, equals
/// by stream number. No cost is above the sheet's, and the meters without which the balance costs least stand first.
///
/// ```
/// use wengeludo_balance::{visits, Offices, Plant, Visit};
///
/// // Three meters in a row, of which the second disagrees with the other two.
/// let file = Plant::new(2).metered(0, 1, 10, 100).metered(1, 2, 10, 160).metered(2, 0, 10, 101).file()?;
/// let list = visits(&file)?;
/// assert_eq!(list[0], Visit { stream: 2, cost: 10 });
/// assert!(list.iter().all(|visit| visit.cost <= Offices::default().draw(0, &file).unwrap().cost));
///
/// // Of equal costs the lower number comes first; a plant without A streams has an empty list.
/// let pair = Plant::new(2).metered(0, 1, 10, 100).unmetered(1, 2).unmetered(1, 2).metered(2, 0, 10, 98).file()?;
/// assert_eq!(visits(&pair)?, [Visit { stream: 1, cost: 0 }, Visit { stream: 4, cost: 0 }]);
/// assert_eq!(visits(&Plant::new(1).metered(0, 1, 10, 100).unmetered(1, 0).file()?)?, []);
/// # Ok::<(), wengeludo_balance::Refusal>(())
/// ```
///
/// # Errors
///
/// The refusals of the file, then [`Refusal::NoFlow`], which has no places here, where no balanced flow lies within all ranges: also
/// where one meter less would leave one.
pub fn visits(file: &[u8]) -> Result<Vec<Visit>, Refusal> {
    let (mut streams, mut costs, mut count) = ([0; MAX_STREAMS], [0; MAX_STREAMS], 0);
    Refusal::check(raw::visits(file, &mut streams, &mut costs, &mut count))?;
    Ok(streams.into_iter().zip(costs).take(count).map(|(stream, cost)| Visit { stream, cost }).collect())
}
