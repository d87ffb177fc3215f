// SPDX-License-Identifier: LicenseRef-Wengeludo
//! Meters worth a visit: each plant with a meter less is contracted and balanced anew, from its own first flow on.

use super::{cheapest, joined, Listed, Stream};

/// The least cost of a plant, not capped; none where no balanced flow is in range.
fn least_cost(plant: &Listed) -> Option<u128> {
    let group = joined(plant, |_, s| s.meter.is_none());
    let flow = cheapest::metered_flows(plant, &group).ok()?;
    let costs = plant.streams.iter().zip(flow).filter_map(|(s, x)| {
        let (weight, reading) = s.meter?;
        Some(u128::from(weight) * u128::from(x.abs_diff(reading.into())).pow(2))
    });
    Some(costs.sum())
}

/// The number of each A stream and the least cost without it, in the order of the list; none where no balanced flow is in range.
pub fn visits(plant: &Listed) -> Option<Vec<(u8, u64)>> {
    let most = least_cost(plant)?;
    let group = joined(plant, |_, s| s.meter.is_none());
    let mut list = Vec::new();
    for (k, s) in plant.streams.iter().enumerate() {
        if s.meter.is_some() && group[s.from] != group[s.to] {
            let mut less = plant.clone();
            less.streams[k] = Stream { from: s.from, to: s.to, ..Stream::default() };
            let cost = least_cost(&less).expect("a flow of the plant is one without a meter");
            assert!(cost <= most, "dearer without a meter");
            list.push((u64::try_from(cost).unwrap_or(u64::MAX), k as u8 + 1));
        }
    }
    list.sort();
    Some(list.into_iter().map(|(cost, stream)| (stream, cost)).collect())
}
