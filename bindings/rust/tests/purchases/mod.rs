// SPDX-License-Identifier: LicenseRef-Wengeludo
//! Meters to buy against a reference: all sets on plants with few unmetered streams, a sorted forest on the others.

use crate::agree::Subject;
use crate::draw::Draw;
use crate::reference::{file_of, read, Listed, Stream};
use wengeludo_balance::raw;

const GUARD: usize = 64;
const FEW: usize = 8;

/// A call: the plant file, the prices and the slice.
#[derive(Clone, Debug, PartialEq, Eq)]
struct Purchase {
    file: Vec<u8>,
    prices: Vec<u32>,
    slice: Vec<u8>,
}

/// What the call returns and leaves behind.
#[derive(Debug, PartialEq, Eq)]
struct Answer {
    returned: u8,
    count: usize,
    price: u32,
    slice: Vec<u8>,
}

/// The number of each unmetered stream, its ends and its price.
type Priced = (u8, u8, u8, u32);

/// Whether streams have no loop: each joins two sets of places.
fn loose(streams: impl Iterator<Item = Priced>) -> bool {
    let mut set: Vec<u8> = (0..=255).collect();
    for (_, from, to, _) in streams {
        let (one, other) = (set[usize::from(from)], set[usize::from(to)]);
        if one == other {
            return false;
        }
        set.iter_mut().filter(|s| **s == one).for_each(|s| *s = other);
    }
    true
}

/// Of all sets that leave no loop the cheapest; of these the one whose numbers come first.
fn of_all_sets(streams: &[Priced]) -> Vec<u8> {
    let split = |set: u32, inside: bool| streams.iter().copied().enumerate().filter(move |(k, _)| (set >> k & 1 == 1) == inside);
    let key = |set: u32| {
        let price: u32 = split(set, true).map(|(_, s)| s.3).sum();
        (price, split(set, true).map(|(_, s)| s.0).collect::<Vec<u8>>())
    };
    (0..1 << streams.len()).filter(|&set| loose(split(set, false).map(|(_, s)| s))).map(key).min().unwrap().1
}

/// Dear streams are left first, of equal prices those of higher number, as long as they close no loop; the others are bought.
fn by_a_sort(streams: &[Priced]) -> Vec<u8> {
    let mut order = streams.to_vec();
    order.sort_by_key(|s| (s.3, s.0));
    let (mut left, mut bought) = (Vec::new(), Vec::new());
    while let Some(s) = order.pop() {
        left.push(s);
        if !loose(left.iter().copied()) {
            left.pop();
            bought.push(s.0);
        }
    }
    bought.sort();
    bought
}

fn expected(call: &Purchase) -> Answer {
    let refused = |returned| Answer { returned, count: 0, price: 0, slice: call.slice.clone() };
    if call.slice.len() < 96 {
        return refused(1);
    }
    let plant = match read(&call.file) {
        Err(number) => return refused(number),
        Ok(plant) => plant,
    };
    let unmetered: Vec<(u8, &Stream)> = (1..).zip(&plant.streams).filter(|(_, s)| s.meter.is_none()).collect();
    if unmetered.len() != call.prices.len() || call.prices.iter().any(|price| !(1..=1_000_000).contains(price)) {
        return refused(21);
    }
    let streams: Vec<Priced> =
        unmetered.iter().zip(&call.prices).map(|(&(k, s), &price)| (k, s.from as u8, s.to as u8, price)).collect();
    let bought = if streams.len() <= FEW { of_all_sets(&streams) } else { by_a_sort(&streams) };
    let mut slice = call.slice.clone();
    slice[..bought.len()].copy_from_slice(&bought);
    let price = streams.iter().filter(|s| bought.contains(&s.0)).map(|s| s.3).sum();
    Answer { returned: 0, count: bought.len(), price, slice }
}

/// The engine's answer, guard elements round the slice.
fn found(call: &Purchase) -> Result<Answer, String> {
    let (file, prices) = (call.file.clone(), call.prices.clone());
    let guard = [0xC3; GUARD];
    let mut memory = [&guard[..], &call.slice, &guard].concat();
    let (mut count, mut price) = (0xDEAD_BEEF, 0xDEAD_BEEF);
    let end = GUARD + call.slice.len();
    let returned = raw::meters_to_buy(&file, &prices, &mut memory[GUARD..end], &mut count, &mut price);
    if memory[..GUARD] != guard || memory[end..] != guard {
        return Err("a guard changed".into());
    }
    if file != call.file || prices != call.prices {
        return Err("the file or the prices changed".into());
    }
    Ok(Answer { returned, count, price, slice: memory[GUARD..end].to_vec() })
}

fn difference(call: &Purchase) -> Result<u8, String> {
    let (found, expected) = (found(call)?, expected(call));
    if found == expected {
        Ok(found.returned)
    } else {
        Err(format!("{found:?}, expected {expected:?}"))
    }
}

/// A plant: one as for the sheet call, or one of few units with most streams unmetered.
fn plant(draw: &mut Draw) -> Listed {
    if draw.below(3) == 0 {
        return draw.plant();
    }
    let (units, most) = [(6, 12), (6, 12), (6, 97), (32, 97)][draw.below(4)];
    let units = 1 + draw.below(units);
    let share = 1 + draw.below(10);
    let streams = (0..draw.below(most))
        .map(|_| {
            let from = draw.below(units + 1);
            let to = (from + 1 + draw.below(units)) % (units + 1);
            let meter = (draw.below(10) >= share).then_some((10, 7));
            Stream { from, to, meter, range: None }
        })
        .collect();
    Listed { units: units as u8, streams }
}

fn drawn(draw: &mut Draw) -> Purchase {
    let listed = plant(draw);
    let mut file = file_of(&listed);
    if draw.below(10) == 0 {
        file = draw.call().file;
    }
    let unmetered = listed.streams.iter().filter(|s| s.meter.is_none()).count();
    let count = match draw.below(20) {
        0 => unmetered + 1,
        1 => unmetered.saturating_sub(1),
        2 => draw.below(100),
        _ => unmetered,
    };
    let top = [1, 2, 3, 10, 1_000_000][draw.below(5)];
    let mut prices: Vec<u32> = (0..count).map(|_| 1 + draw.below(top) as u32).collect();
    if count > 0 && draw.below(10) == 0 {
        let k = draw.below(count);
        prices[k] = [0, 1, 1_000_000, 1_000_001, u32::MAX][draw.below(5)];
    }
    let length = match draw.below(20) {
        0 => draw.below(96),
        1..=9 => 96 + draw.below(30),
        _ => 96,
    };
    Purchase { file, prices, slice: draw.bytes(length) }
}

/// Simpler calls: without a stream and its price, with a price made 1, with a plain slice.
fn simpler(call: &Purchase) -> Vec<Purchase> {
    let mut all = Vec::new();
    if let Ok(plant) = read(&call.file) {
        let mut next = 0;
        for k in 0..plant.streams.len() {
            let unmetered = plant.streams[k].meter.is_none();
            let mut streams = plant.streams.clone();
            streams.remove(k);
            let mut c = Purchase { file: file_of(&Listed { units: plant.units, streams }), ..call.clone() };
            if unmetered && next < c.prices.len() {
                c.prices.remove(next);
            }
            next += usize::from(unmetered);
            all.push(c);
        }
    }
    for k in (0..call.prices.len()).filter(|&k| call.prices[k] != 1) {
        let mut c = call.clone();
        c.prices[k] = 1;
        all.push(c);
    }
    if call.slice.iter().any(|b| *b != 0) {
        all.push(Purchase { slice: vec![0; call.slice.len()], ..call.clone() });
    }
    all
}

#[test]
fn purchases_and_reference_agree() {
    let tally = Subject::by_number("meters to buy", drawn, difference, simpler, 21).agree();
    println!("sets: {}; refusals {}", tally.count(0), tally.refusals(1, 21));
    tally.all_met(&[0, 1, 3, 4, 5, 6, 7, 8, 9, 10, 11, 12, 18, 21], 0, 21);
}

/// The sort against all sets, by themselves.
#[test]
fn both_references_agree() {
    for k in 0..2_000 {
        let mut draw = Draw::new(k);
        let units = 1 + draw.below(5);
        let streams: Vec<Priced> = (1..=draw.below(9) as u8)
            .map(|k| {
                let from = draw.below(units + 1);
                (k, from as u8, ((from + 1 + draw.below(units)) % (units + 1)) as u8, 1 + draw.below(3) as u32)
            })
            .collect();
        assert_eq!(of_all_sets(&streams), by_a_sort(&streams), "{streams:?}");
    }
}

/// The sample: the meters that its prices ask for, and the sheet with them.
#[test]
fn the_sample_site() {
    let sample = |name: &str| std::fs::read(format!("{}/../../samples/{name}", env!("CARGO_MANIFEST_DIR"))).unwrap();
    let bought = wengeludo_balance::meters_to_buy(&sample("blind_site.bin"), &[900, 1400, 650, 650, 300, 300, 420]).unwrap();
    assert_eq!((bought.streams, bought.price), (vec![4, 8], 950));
    let blank =
        |name: &str| wengeludo_balance::Offices::default().draw(0, &sample(name)).unwrap().to_string().matches('W').count();
    assert_eq!((blank("blind_site.bin"), blank("sighted_site.bin")), (6, 0));
}
