// SPDX-License-Identifier: LicenseRef-Wengeludo
//! Meters to buy.

use crate::raw;
use crate::refusal::Refusal;
use crate::MAX_STREAMS;

/// The streams to be metered so that nothing is withheld.
#[derive(Clone, Debug, PartialEq, Eq, Hash)]
pub struct Purchase {
    /// Their numbers, counted from 1, in rising order; none where nothing is withheld.
    pub streams: Vec<u8>,
    /// What the meters cost together.
    pub price: u32,
}

/// The cheapest set of unmetered streams of a plant file to be metered so that nothing is withheld. The prices are one for each
/// unmetered stream, in stream order, from 1 to 1,000,000. Of equally cheap sets it is the one whose numbers come first at the
/// first difference. Ranges play no part.
///
/// ```
/// use wengeludo_balance::{meters_to_buy, Offices, Plant, Refusal};
/// let blind = Plant::new(2).metered(0, 1, 10, 100).unmetered(1, 2).unmetered(1, 2).metered(2, 0, 10, 98).file()?;
/// let bought = meters_to_buy(&blind, &[500, 300])?;
/// assert_eq!((bought.streams, bought.price), (vec![3], 300));
/// let then = Plant::new(2).metered(0, 1, 10, 100).unmetered(1, 2).metered(1, 2, 10, 40).metered(2, 0, 10, 98).file()?;
/// assert_eq!(Offices::default().draw(0, &then)?.to_string(), "1 A 99\n2 G 59\n3 R 40\n4 A 99\ntotal 1 20 1 pass\n");
/// assert_eq!(meters_to_buy(&then, &[500])?.streams, []);
/// assert_eq!(meters_to_buy(&blind, &[500]), Err(Refusal::Prices));
/// # Ok::<(), Refusal>(())
/// ```
pub fn meters_to_buy(file: &[u8], prices: &[u32]) -> Result<Purchase, Refusal> {
    let (mut streams, mut count, mut price) = ([0; MAX_STREAMS], 0, 0);
    Refusal::check(raw::meters_to_buy(file, prices, &mut streams, &mut count, &mut price))?;
    Ok(Purchase { streams: streams[..count].to_vec(), price })
}
