// SPDX-License-Identifier: LicenseRef-Wengeludo
//! The smallest input that still shows a difference: each simpler one is tried until none shows it.

use crate::draw::{Call, Reopen, Write};
use crate::reference::{file_of, read, Listed};

/// Goes to a simpler input as long as there is one that differs.
pub fn smallest<T>(mut input: T, simpler: &dyn Fn(&T) -> Vec<T>, differs: &dyn Fn(&T) -> bool) -> T {
    while let Some(next) = simpler(&input).into_iter().find(|i| differs(i)) {
        input = next;
    }
    input
}

/// Simpler sheet calls, the simplest first.
pub fn simpler_calls(call: &Call) -> Vec<Call> {
    let mut all = Vec::new();
    if call.lasts != [0; 8] {
        all.push(Call { lasts: vec![0; 8], ..call.clone() });
    }
    if call.lasts.iter().any(|last| *last != 0) {
        all.push(Call { lasts: vec![0; call.lasts.len()], ..call.clone() });
    }
    if call.office != 0 {
        all.push(Call { office: 0, ..call.clone() });
    }
    if call.slice.len() > 880 {
        all.push(Call { slice: call.slice[..880].to_vec(), ..call.clone() });
    }
    if call.slice.iter().any(|b| *b != 0) {
        all.push(Call { slice: vec![0; call.slice.len()], ..call.clone() });
    }
    let files = match read(&call.file) {
        Ok(plant) => simpler_plants(&plant).iter().map(file_of).collect(),
        Err(_) => simpler_bytes(&call.file),
    };
    all.extend(files.into_iter().map(|file| Call { file, ..call.clone() }));
    all
}

fn simpler_plants(plant: &Listed) -> Vec<Listed> {
    let mut all = Vec::new();
    let n = plant.streams.len();
    // Without half the streams, a quarter, .., one.
    let mut part = n / 2;
    while part > 0 {
        for start in (0..n).step_by(part) {
            let mut p = plant.clone();
            p.streams.drain(start..(start + part).min(n));
            all.push(p);
        }
        part /= 2;
    }
    if n == 1 {
        all.push(Listed { streams: Vec::new(), ..plant.clone() });
    }
    // Without a unit that has no stream; or with two places made one.
    if plant.units > 1 {
        for gone in 1..=usize::from(plant.units) {
            for into in 0..gone {
                let place = |x: usize| {
                    if x == gone {
                        into
                    } else if x > gone {
                        x - 1
                    } else {
                        x
                    }
                };
                let mut p = plant.clone();
                p.units -= 1;
                for s in &mut p.streams {
                    s.from = place(s.from);
                    s.to = place(s.to);
                }
                p.streams.retain(|s| s.from != s.to);
                all.push(p);
            }
        }
    }
    let mut alike = plant.clone();
    for meter in alike.streams.iter_mut().filter_map(|s| s.meter.as_mut()) {
        meter.0 = 1;
    }
    if alike != *plant {
        all.push(alike);
    }
    for k in 0..n {
        if let Some((weight, reading)) = plant.streams[k].meter {
            let mut with = |w: u16, r: i32| {
                let mut p = plant.clone();
                p.streams[k].meter = Some((w, r));
                all.push(p);
            };
            if weight > 1 {
                with(1, reading);
                with(weight / 2, reading);
                with(weight - 1, reading);
            }
            if reading != 0 {
                with(weight, 0);
                if reading.abs() > 1 {
                    with(weight, reading.signum());
                    with(weight, reading / 2);
                    with(weight, reading - 2 * reading.signum());
                }
                with(weight, reading - reading.signum());
            }
        }
        for range in simpler_ranges(plant.streams[k].range) {
            let mut p = plant.clone();
            p.streams[k].range = range;
            all.push(p);
        }
    }
    all
}

/// A number nearer to 0, the nearest first: less by all of it, a half, a quarter, .., 1.
fn nearer(x: i32) -> Vec<i32> {
    (0..31).map(|k| x / (1 << k)).filter(|part| *part != 0).map(|part| x - part).collect()
}

/// No range; or one with an end nearer to 0, or both.
fn simpler_ranges(range: Option<(i32, i32)>) -> Vec<Option<(i32, i32)>> {
    let (low, high) = match range {
        Some(ends) => ends,
        None => return Vec::new(),
    };
    let lows = nearer(low).into_iter().map(|x| (x, high));
    let highs = nearer(high).into_iter().map(|x| (low, x));
    let both = nearer(low).into_iter().zip(nearer(high));
    std::iter::once(None).chain(lows.chain(highs).chain(both).map(Some)).collect()
}

/// Simpler calls of the writer: without a stream, with another count, with a plain slice, with a number made 0.
pub fn simpler_writes(w: &Write) -> Vec<Write> {
    let mut all = Vec::new();
    let longest = w.lengths().into_iter().max().unwrap();
    for k in (0..longest).rev() {
        let mut v = w.clone();
        v.count -= usize::from(k < v.count);
        drop_at(&mut v.from, k);
        drop_at(&mut v.to, k);
        drop_at(&mut v.metered, k);
        drop_at(&mut v.weight, k);
        drop_at(&mut v.reading, k);
        drop_at(&mut v.ranged, k);
        drop_at(&mut v.low, k);
        drop_at(&mut v.high, k);
        all.push(v);
    }
    if w.count > 0 {
        all.push(Write { count: w.count / 2, ..w.clone() });
        all.push(Write { count: w.count - 1, ..w.clone() });
    }
    if w.slice.len() > 1636 {
        all.push(Write { slice: w.slice[..1636].to_vec(), ..w.clone() });
    }
    if w.slice.iter().any(|b| *b != 0) {
        all.push(Write { slice: vec![0; w.slice.len()], ..w.clone() });
    }
    for k in 0..longest {
        let mut v = w.clone();
        zero_at(&mut v.from, k);
        zero_at(&mut v.to, k);
        zero_at(&mut v.metered, k);
        zero_at(&mut v.weight, k);
        zero_at(&mut v.reading, k);
        zero_at(&mut v.ranged, k);
        zero_at(&mut v.low, k);
        zero_at(&mut v.high, k);
        if v != *w {
            all.push(v);
        }
    }
    all
}

/// Simpler calls of the sheet reader: fewer bytes, bytes made 0, plain slices of 96 elements.
pub fn simpler_reopens(r: &Reopen) -> Vec<Reopen> {
    let mut all: Vec<Reopen> = simpler_bytes(&r.bytes).into_iter().map(|bytes| Reopen { bytes, ..r.clone() }).collect();
    let plain = Reopen { bytes: r.bytes.clone(), kinds: vec![0; 96], flows: vec![0; 96] };
    if plain != *r {
        all.push(plain);
    }
    all
}

fn drop_at<T>(part: &mut Vec<T>, k: usize) {
    if k < part.len() {
        part.remove(k);
    }
}

fn zero_at<T: Default>(part: &mut [T], k: usize) {
    if let Some(number) = part.get_mut(k) {
        *number = T::default();
    }
}

fn simpler_bytes(file: &[u8]) -> Vec<Vec<u8>> {
    let mut all = Vec::new();
    let n = file.len();
    let mut part = n;
    while part > 0 {
        for start in (0..n).step_by(part) {
            let mut f = file.to_vec();
            f.drain(start..(start + part).min(n));
            all.push(f);
        }
        part /= 2;
    }
    for (k, b) in file.iter().enumerate() {
        if *b != 0 {
            let mut f = file.to_vec();
            f[k] = 0;
            all.push(f);
        }
    }
    all
}
