// SPDX-License-Identifier: LicenseRef-Wengeludo
//! Plant files moved to the ranged form, and home again.

use crate::raw;
use crate::refusal::Refusal;
use crate::FILE_SIZE;

/// The plant file in the ranged form: each metered stream without a range has the widest, -2,000,000,000 to 2,000,000,000. A
/// stream that has a range keeps it. The sheet of a plant without ranges stays the same.
///
/// ```
/// use wengeludo_balance::{from_ranged, to_ranged, Offices, Plant, Refusal};
/// let file = Plant::new(1).metered(0, 1, 10, 100).metered(1, 0, 10, 103).file()?;
/// let ranged = to_ranged(&file)?;
/// let widest = (-2_000_000_000, 2_000_000_000);
/// let plant = Plant::new(1)
///     .metered_within(0, 1, 10, 100, widest.0, widest.1)
///     .metered_within(1, 0, 10, 103, widest.0, widest.1);
/// assert_eq!(ranged, plant.file()?);
/// assert_eq!(Offices::default().draw(0, &ranged)?, Offices::default().draw(0, &file)?);
/// assert_eq!(from_ranged(&ranged)?, file);
/// # Ok::<(), Refusal>(())
/// ```
pub fn to_ranged(file: &[u8]) -> Result<Vec<u8>, Refusal> {
    whole(|out| to_ranged_into(file, out))
}

/// The plant file moved home: each metered stream with the widest range has none. A range that is narrower is refused.
///
/// ```
/// use wengeludo_balance::{from_ranged, Plant, Refusal};
/// let narrow = Plant::new(1).metered_within(0, 1, 10, 100, 0, 2_000_000_000).file()?;
/// assert_eq!(from_ranged(&narrow), Err(Refusal::Narrower));
/// # Ok::<(), Refusal>(())
/// ```
pub fn from_ranged(file: &[u8]) -> Result<Vec<u8>, Refusal> {
    whole(|out| from_ranged_into(file, out))
}

/// Writes the plant file in the ranged form into a slice of at least [`FILE_SIZE`] bytes, and says how many it takes. The
/// bytes past it keep their values; where the call is refused, all do. Nothing is allocated.
pub fn to_ranged_into(file: &[u8], out: &mut [u8]) -> Result<usize, Refusal> {
    let mut written = 0;
    Refusal::check(raw::to_ranged(file, out, &mut written))?;
    Ok(written)
}

/// Writes the plant file moved home into a slice, as [`to_ranged_into`] does.
pub fn from_ranged_into(file: &[u8], out: &mut [u8]) -> Result<usize, Refusal> {
    let mut written = 0;
    Refusal::check(raw::from_ranged(file, out, &mut written))?;
    Ok(written)
}

fn whole(write: impl FnOnce(&mut [u8]) -> Result<usize, Refusal>) -> Result<Vec<u8>, Refusal> {
    let mut out = vec![0; FILE_SIZE];
    let written = write(&mut out)?;
    out.truncate(written);
    Ok(out)
}
