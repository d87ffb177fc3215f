// SPDX-License-Identifier: LicenseRef-Wengeludo
//! A second way to the same sheets, exact, by another method than the engine's.
//!
//! The places are contracted to the groups that unmetered streams join; what is left is a balanced flow over the streams
//! that lie between groups. A first flow comes from the real-number optimum, worked out in floating point and rounded: it
//! need not be good, nor in range, only balanced, and nothing after it depends on it. Then cycles are cancelled: as long as
//! going round some cycle lowers (what lies outside the ranges, cost, flows weighed by 2 to the power of the streams after
//! them), in this order, the flow goes round it. The search for such a cycle is by lengths of walks (Bellman and Ford), over
//! whole numbers. That no cycle is left is what makes a flow the cheapest one in range:
//!
//! 1. The difference of two balanced flows falls apart into cycles of ones that never run against it on a stream. What lies
//!    outside a range is convex, and so is each stream's cost: the changes of the single cycles add up to at most the whole
//!    change. If no cycle lowers the pair, no flow has a lesser one. So a flow in range is found if there is one, and the
//!    cheapest of them; else the places nearer than an end of a stream outside its range show that there is none, and they
//!    are tested.
//! 2. Two flows in range of least cost differ by at most 1 on each such stream: else one cycle of their difference, moved
//!    from one to the other, keeps both in range and lowers the two costs together, the weights being positive. So at the
//!    first stream where they differ its power of 2 outweighs all later ones, and the lesser flow there is found by the
//!    third part.

mod cheapest;
mod file;
mod kept;
mod visits;

pub use file::{file_of, read, read_records, write, Listed, Stream};
pub use kept::{reopen, sheet_bytes, Kept};
pub use visits::visits;

/// What a call returns and leaves behind.
#[derive(Clone, Debug, PartialEq, Eq)]
pub struct Outcome {
    pub returned: u8,
    pub written: usize,
    /// The last sheet numbers, of the sheet call; none of another.
    pub lasts: Vec<u32>,
    pub slice: Vec<u8>,
    /// Bit u for place u.
    pub marked: u64,
}

const CRITICAL: [u64; 32] = [
    3841, 5991, 7815, 9488, 11070, 12592, 14067, 15507, 16919, 18307, 19675, 21026, 22362, 23685, 24996, 26296, 27587, 28869,
    30144, 31410, 32671, 33924, 35172, 36415, 37652, 38885, 40113, 41337, 42557, 43773, 44985, 46194,
];

/// The sheet call of an office, over as many last sheet numbers as are lent.
pub fn sheet_call(file: &[u8], office: u8, lasts: &[u32], slice: &[u8]) -> Outcome {
    let refused = |returned, marked| Outcome { returned, written: 0, lasts: lasts.to_vec(), slice: slice.to_vec(), marked };
    if slice.len() < 880 || lasts.len() < 8 {
        return refused(1, 0);
    }
    if office > 7 {
        return refused(22, 0);
    }
    let mut lasts = lasts.to_vec();
    let last = &mut lasts[usize::from(office)];
    if *last == u32::MAX {
        return refused(2, 0);
    }
    let plant = match read(file) {
        Err(number) => return refused(number, 0),
        Ok(plant) => plant,
    };
    *last += 1;
    match sheet_of(&plant, office, *last) {
        Err(marked) => refused(19, marked),
        Ok(sheet) => {
            let mut slice = slice.to_vec();
            slice[..sheet.len()].copy_from_slice(&sheet);
            Outcome { returned: 0, written: sheet.len(), lasts, slice, marked: 0 }
        }
    }
}

/// Whether the marked places must take in more than they can let out: every stream across their edge has a range, and the
/// lows in sum to more than the highs out. No place above the units is marked.
pub fn overfull(plant: &Listed, marked: u64) -> bool {
    let mut more = 0;
    for s in &plant.streams {
        match (marked >> s.from & 1, marked >> s.to & 1, s.limits()) {
            (0, 1, Some((low, _))) => more += low,
            (1, 0, Some((_, high))) => more -= high,
            (from, to, None) if from != to => return false,
            _ => {}
        }
    }
    more > 0 && marked >> plant.units >> 1 == 0
}

/// The label of each place: the least place that the chosen streams join it to.
fn joined(plant: &Listed, use_it: impl Fn(usize, &Stream) -> bool) -> Vec<usize> {
    let mut label: Vec<usize> = (0..=usize::from(plant.units)).collect();
    loop {
        let mut changed = false;
        for (k, s) in plant.streams.iter().enumerate() {
            if use_it(k, s) {
                let least = label[s.from].min(label[s.to]);
                changed |= label[s.from] != least || label[s.to] != least;
                label[s.from] = least;
                label[s.to] = least;
            }
        }
        if !changed {
            return label;
        }
    }
}

fn count(labels: &[usize]) -> usize {
    labels.iter().enumerate().filter(|(i, l)| i == *l).count()
}

/// The bytes of an office's sheet of the plant under a number; where no balanced flow is in range, places that show it.
pub fn sheet_of(plant: &Listed, office: u8, number: u32) -> Result<Vec<u8>, u64> {
    let group = joined(plant, |_, s| s.meter.is_none());
    let piece = joined(plant, |_, _| true);
    let flow = match cheapest::metered_flows(plant, &group) {
        Ok(flow) => flow,
        Err(set) => {
            let marked = set.iter().rev().fold(0, |mask, inside| mask << 1 | u64::from(*inside));
            assert!(overfull(plant, marked), "no flow, and a set that does not show it");
            return Err(marked);
        }
    };
    let mut sheet = Vec::new();
    let (mut cost, mut adjusted): (u128, u128) = (0, 0);
    for (k, s) in plant.streams.iter().enumerate() {
        let (kind, value) = match s.meter {
            Some((weight, reading)) => {
                let off = i128::from(flow[k] - i64::from(reading));
                cost += u128::from(weight) * (off * off) as u128;
                assert!(s.limits().map_or(true, |(low, high)| (low..=high).contains(&flow[k])), "a flow outside its range");
                if group[s.from] != group[s.to] {
                    adjusted += u128::from(weight);
                    (0x11, Some(flow[k]))
                } else {
                    (0x12, Some(flow[k]))
                }
            }
            None => {
                // Without this stream: is its end still joined to its start? If not, it carries what the places beyond need.
                let side = joined(plant, |j, t| j != k && t.meter.is_none());
                if side[s.from] == side[s.to] {
                    (0x14, None)
                } else {
                    let near = side[s.from];
                    let net: i64 = plant
                        .streams
                        .iter()
                        .zip(&flow)
                        .filter(|(t, _)| t.meter.is_some())
                        .map(|(t, x)| if side[t.to] == near { *x } else { 0 } - if side[t.from] == near { *x } else { 0 })
                        .sum();
                    (0x13, Some(net))
                }
            }
        };
        sheet.push(kind);
        if let Some(value) = value {
            sheet.extend(value.to_be_bytes());
        }
    }
    let degrees = count(&group) - count(&piece);
    let verdict = match degrees.checked_sub(1).map(|at| u128::from(CRITICAL[at])) {
        None => 2,
        Some(value) if cost <= value => 0,
        Some(value) if 4 * cost <= 4 * value + adjusted => 3,
        Some(_) => 1,
    };
    sheet.extend([0x1E, office]);
    sheet.extend(number.to_be_bytes());
    sheet.extend(u64::try_from(cost).unwrap_or(u64::MAX).to_be_bytes());
    sheet.push(degrees as u8);
    sheet.push(verdict);
    Ok(sheet)
}
