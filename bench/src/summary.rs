// SPDX-License-Identifier: LicenseRef-Wengeludo
//! What a list of times comes to.

/// The median, the 99th percentile and the worst of a list.
#[derive(Clone, Copy, Debug)]
pub struct Summary {
    pub median: f64,
    pub high: f64,
    pub worst: f64,
}

pub fn summary(list: impl Iterator<Item = f64>) -> Summary {
    let mut sorted: Vec<f64> = list.collect();
    sorted.sort_by(f64::total_cmp);
    let n = sorted.len();
    Summary { median: sorted[n / 2], high: sorted[n * 99 / 100], worst: sorted[n - 1] }
}

pub fn median(list: impl Iterator<Item = f64>) -> f64 {
    summary(list).median
}

/// The number that a quarter of a list lies below. Other work on the machine only lengthens a time, and the least time of several
/// may be luck: this is what one thing takes that was timed several times.
pub fn quartile(list: impl Iterator<Item = f64>) -> f64 {
    let mut sorted: Vec<f64> = list.collect();
    sorted.sort_by(f64::total_cmp);
    sorted[sorted.len() / 4]
}

/// A number with as many digits as it is good for.
pub fn short(x: f64) -> String {
    match x {
        x if x < 10.0 => format!("{x:.2}"),
        x if x < 100.0 => format!("{x:.1}"),
        x => format!("{x:.0}"),
    }
}
