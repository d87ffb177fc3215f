// SPDX-License-Identifier: LicenseRef-Wengeludo
//! What can be watched of a call: the work counted, and when each phase ends. Unwatched calls pay nothing for it.

use std::time::Instant;

/// The phases of a call, each named at its end.
#[derive(Clone, Copy, Debug, PartialEq, Eq)]
pub enum Phase {
    Start,
    Read,
    Hint,
    Improvements,
    Ties,
    Classes,
    Write,
}

pub trait Watch {
    /// So many streams were looked at.
    fn visits(&mut self, _streams: usize) {}
    /// A place was labelled.
    fn round(&mut self) {}
    /// One stream's amount was moved.
    fn push(&mut self) {}
    /// An improvement was made.
    fn improvement(&mut self) {}
    /// A search found no way.
    fn stuck(&mut self) {}
    /// Gaps between potentials were closed.
    fn closed(&mut self) {}
    /// The hint was left, for the phases.
    fn fell_back(&mut self) {}
    /// A phase ended.
    fn phase(&mut self, _phase: Phase) {}
}

pub struct Unwatched;

impl Watch for Unwatched {}

/// Everything counted and timed.
#[derive(Clone, Debug)]
pub struct Work {
    pub visits: u64,
    pub pushes: u64,
    pub improvements: u64,
    /// Places labelled in their searches, and searches that were stuck.
    pub labelled: u64,
    pub stuck: u64,
    pub closed: u64,
    pub fell_back: bool,
    /// The number that the call returned.
    pub returned: u8,
    improving: bool,
    then: Instant,
    /// Microseconds by phase.
    pub phases: [f64; 7],
}

impl Work {
    pub fn new() -> Work {
        Work {
            visits: 0,
            pushes: 0,
            improvements: 0,
            labelled: 0,
            stuck: 0,
            closed: 0,
            fell_back: false,
            returned: 0,
            improving: false,
            then: Instant::now(),
            phases: [0.0; 7],
        }
    }

    /// What takes the time: streams looked at and amounts moved.
    pub fn total(&self) -> u64 {
        self.visits + self.pushes
    }
}

impl Default for Work {
    fn default() -> Work {
        Work::new()
    }
}

impl Watch for Work {
    fn visits(&mut self, streams: usize) {
        self.visits += streams as u64;
    }

    fn round(&mut self) {
        self.labelled += u64::from(self.improving);
    }

    fn push(&mut self) {
        self.pushes += 1;
    }

    fn improvement(&mut self) {
        self.improvements += 1;
    }

    fn stuck(&mut self) {
        self.stuck += 1;
    }

    fn closed(&mut self) {
        self.closed += 1;
    }

    fn fell_back(&mut self) {
        self.fell_back = true;
    }

    fn phase(&mut self, phase: Phase) {
        let now = Instant::now();
        self.phases[phase as usize] = (now - self.then).as_secs_f64() * 1e6;
        self.improving = phase == Phase::Hint;
        self.then = Instant::now();
    }
}
