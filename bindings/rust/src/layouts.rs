// SPDX-License-Identifier: LicenseRef-Wengeludo
//! The survey of meter layouts.

use crate::{raw, Refusal};

/// The most streams of a plant whose layouts are surveyed.
pub const MAX_SURVEYED: usize = 12;

/// For each k from 0 to the number of streams, how many choices of k metered streams leave none withheld. Which streams the file
/// has metered, and their ranges, play no part.
///
/// ```
/// use wengeludo_balance::{layouts, Plant};
///
/// let file = Plant::new(2).metered(0, 1, 10, 100).unmetered(1, 2).unmetered(1, 2).metered(2, 0, 10, 98).file()?;
/// assert_eq!(layouts(&file)?, [0, 0, 5, 4, 1]);
/// assert_eq!(layouts(&Plant::new(1).file()?)?, [1]);
/// # Ok::<(), wengeludo_balance::Refusal>(())
/// ```
///
/// # Errors
///
/// The refusals of the file, then [`Refusal::TooManyToSurvey`] above 12 streams.
pub fn layouts(file: &[u8]) -> Result<Vec<u16>, Refusal> {
    let mut counts = vec![0; MAX_SURVEYED + 1];
    let mut count = 0;
    Refusal::check(raw::layouts_of(file, &mut counts, &mut count))?;
    counts.truncate(count + 1);
    Ok(counts)
}
