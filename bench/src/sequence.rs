// SPDX-License-Identifier: LicenseRef-Wengeludo
//! Times in sequence: a site comes again when all the others were there, as it does in a program that balances many sites. A
//! processor that meets one plant again and again learns its branches, and the times flatter.

use crate::summary::quartile;
use std::time::Instant;

/// So many of the last sites are called before a round without being timed, so that the first do not pay for what another call
/// left in the caches.
const BEFORE: usize = 30;

/// One round over sites with one call: the time of each, in microseconds.
fn round<T>(sites: &[T], call: impl Fn(&T)) -> Vec<f64> {
    sites.iter().rev().take(BEFORE).rev().for_each(&call);
    let time = |site| {
        let start = Instant::now();
        call(site);
        start.elapsed().as_secs_f64() * 1e6
    };
    sites.iter().map(time).collect()
}

/// A group's times: by the call, the round and the site.
type Rounds = Vec<Vec<Vec<f64>>>;

/// Which call comes at a turn of a round. From round to round another comes first, and in as many rounds as there are calls each
/// comes after as many different ones as can be (a Latin square by the row 0, 1, -1, 2, -2 and so on).
fn at_turn(turn: usize, round: usize, calls: usize) -> usize {
    let step = (turn + 1) / 2;
    (round + if turn % 2 == 1 { step } else { calls - step }) % calls
}

/// The sites of a group with each call in its turn of a round.
fn turns<T>(sites: &[T], times: &mut Rounds, number: usize, call: &impl Fn(usize, &T)) {
    let calls = times.len();
    for turn in 0..calls {
        let k = at_turn(turn, number, calls);
        times[k].push(round(sites, |site| call(k, site)));
    }
}

/// The lower quartile of each site's times over the rounds.
fn quartiles(rounds: &[Vec<f64>]) -> Vec<f64> {
    (0..rounds[0].len()).map(|site| quartile(rounds.iter().map(|times| times[site]))).collect()
}

/// Groups of sites with so many calls in turns: each round goes over all groups, and in a group over all sites with one call, then
/// with the next. What each site takes, the lower quartile of its rounds, by the group, the call and the site.
pub fn in_turns<T>(groups: &[Vec<T>], calls: usize, rounds: usize, call: impl Fn(usize, &T)) -> Vec<Vec<Vec<f64>>> {
    let mut times: Vec<Rounds> = groups.iter().map(|_| vec![Vec::new(); calls]).collect();
    for number in 0..rounds {
        groups.iter().zip(&mut times).for_each(|(sites, times)| turns(sites, times, number, &call));
    }
    times.iter().map(|calls| calls.iter().map(|rounds| quartiles(rounds)).collect()).collect()
}

#[cfg(test)]
mod tests {
    use super::*;
    use std::cell::RefCell;

    #[test]
    fn others_come_between() {
        let seen = RefCell::new(Vec::new());
        let times = in_turns(&[vec!["a", "b"], vec!["c"]], 2, 2, |k, site| seen.borrow_mut().push(format!("{k}{site}")));
        let (first, second) = ("0a 0b 0a 0b 1a 1b 1a 1b 0c 0c 1c 1c", "1a 1b 1a 1b 0a 0b 0a 0b 1c 1c 0c 0c");
        assert_eq!(seen.into_inner().join(" "), format!("{first} {second}"));
        let sizes: Vec<Vec<usize>> = times.iter().map(|calls| calls.iter().map(Vec::len).collect()).collect();
        assert_eq!(sizes, [[2, 2], [1, 1]]);
    }

    #[test]
    fn each_comes_after_each_other() {
        let order = |round: usize| (0..4).map(move |turn| at_turn(turn, round, 4)).collect::<Vec<usize>>();
        let rounds: Vec<Vec<usize>> = (0..4).map(order).collect();
        assert_eq!(rounds[0], [0, 1, 3, 2]);
        let mut pairs: Vec<(usize, usize)> = rounds.iter().flat_map(|r| r.windows(2).map(|w| (w[0], w[1]))).collect();
        pairs.sort_unstable();
        pairs.dedup();
        assert_eq!(pairs.len(), 12);
    }

    #[test]
    fn disturbed_and_lucky_rounds_do_not_count() {
        let rounds = [vec![2.0, 5.0], vec![90.0, 4.0], vec![95.0, 1.0], vec![1.0, 4.0], vec![2.0, 5.0]];
        assert_eq!(quartiles(&rounds), [2.0, 4.0]);
    }
}
