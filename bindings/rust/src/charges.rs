// SPDX-License-Identifier: LicenseRef-Wengeludo
//! Steam charges.

use crate::{raw, Refusal, MAX_STREAMS};

/// The greatest rate, in ten-thousandths of a cent per kg.
pub const MAX_RATE: u16 = 10_000;

/// What a stream to the outside is charged for one hour.
#[derive(Clone, Copy, Debug, PartialEq, Eq, Hash)]
pub struct Charge {
    /// The stream's number, counted from 1.
    pub stream: u8,
    /// The charge in cents; a credit where it is negative.
    pub cents: i64,
}

/// The charges of a site's neighbours, which add up to the bill.
#[derive(Clone, Debug, PartialEq, Eq, Hash)]
pub struct Bill {
    /// A charge for each stream to the outside, in stream order.
    pub charges: Vec<Charge>,
    /// The bill in cents: the exact sum of flow times rate, rounded toward minus infinity.
    pub cents: i64,
}

/// Bills the streams to the outside of a plant file, those whose `to` is 0, for one hour of the flows on its sheet. The rates are one
/// for each of them, in stream order, from 0 to 10,000 ten-thousandths of a cent per kg; the call sees how many they are, not whether
/// their order is right. A share, flow times rate, is rounded toward minus infinity first; the cents then missing from the bill go one
/// each to the largest remainders, of equal ones to the lower stream. A charge is less than one cent away from its share.
///
/// No sheet number is drawn, and the verdict is not looked at: a sheet that fails is billed as one that passes.
///
/// ```
/// use wengeludo_balance::{charges, Charge, Plant, Refusal};
///
/// // Three neighbours take 1 kg at half a cent each, a fourth sends 2 kg back.
/// let site = Plant::new(1).metered(1, 0, 10, 1).metered(1, 0, 10, 1).metered(1, 0, 10, 1).metered(1, 0, 10, -2).unmetered(0, 1);
/// let file = site.file()?;
/// let bill = charges(&file, &[5_000, 5_000, 5_000, 10_000])?;
/// let charge = |stream, cents| Charge { stream, cents };
/// assert_eq!(bill.charges, [charge(1, 1), charge(2, 0), charge(3, 0), charge(4, -2)]);
/// assert_eq!(bill.cents, -1);
/// assert_eq!(charges(&file, &[5_000]), Err(Refusal::Rates));
///
/// // Two lines side by side, neither metered: what each carries is withheld, and cannot be billed.
/// let twin = Plant::new(1).metered(0, 1, 10, 100).unmetered(1, 0).unmetered(1, 0).file()?;
/// assert_eq!(charges(&twin, &[0, 0]), Err(Refusal::ChargeWithheld));
/// # Ok::<(), Refusal>(())
/// ```
///
/// # Errors
///
/// The refusals of the file, then [`Refusal::NoFlow`], which has no places here, then [`Refusal::Rates`], then
/// [`Refusal::ChargeWithheld`].
pub fn charges(file: &[u8], rates: &[u16]) -> Result<Bill, Refusal> {
    let (mut streams, mut cents, mut count, mut bill) = ([0; MAX_STREAMS], [0; MAX_STREAMS], 0, 0);
    Refusal::check(raw::charges(file, rates, &mut streams, &mut cents, &mut count, &mut bill))?;
    let charges = streams.into_iter().zip(cents).take(count).map(|(stream, cents)| Charge { stream, cents }).collect();
    Ok(Bill { charges, cents: bill })
}
