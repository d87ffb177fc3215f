// SPDX-License-Identifier: LicenseRef-Wengeludo
//! Steam and condensate balance sheets.
//!
//! A [`Plant`] lists the streams between its units; [`Offices`] have the sheet counters of the offices, and [`Offices::draw`] takes
//! an office and a plant file and returns its [`Sheet`], or a [`Refusal`] that leaves all counters as they were.
//!
//! ```
//! use wengeludo_balance::{Offices, Plant, Record, Verdict};
//!
//! let file = Plant::new(2)
//!     .metered(0, 1, 10, 100)
//!     .unmetered(1, 2)
//!     .unmetered(1, 2)
//!     .metered(2, 0, 10, 98)
//!     .file()?;
//! let mut offices = Offices::default();
//! let sheet = offices.draw(0, &file)?;
//! assert_eq!(sheet.records, [Record::Adjusted(99), Record::Withheld, Record::Withheld, Record::Adjusted(99)]);
//! assert_eq!((sheet.number, sheet.cost, sheet.degrees, sheet.verdict), (1, 20, 1, Verdict::Pass));
//! assert_eq!(offices.lasts(), [1, 0, 0, 0, 0, 0, 0, 0]);
//! # Ok::<(), wengeludo_balance::Refusal>(())
//! ```
//!
//! A kept sheet is reopened by [`Sheet::from_bytes`], one drawn before there were offices too; who had one sheet counter then goes
//! on with [`Offices::from_last`].
//!
//! A [`Transmitter`] lists what meters send, values and standard deviations as floats; its plant file is what the sheet call
//! takes.
//!
//! [`to_ranged`] moves a plant file to the form in which every meter has a range, [`from_ranged`] moves it home.
//!
//! [`meters_to_buy`] says which streams to meter, at the least price, so that no record is [`Record::Withheld`] any more.
//!
//! [`layouts`] counts, for each number of meters, the ways to lay them out that leave no flow unknown.
//!
//! [`visits`] lists what the balance costs at least without each meter: where a fitter goes first.
//!
//! [`charges`] bills the streams to the outside by the flows on the sheet.
//!
//! [`check`] tests a sheet drawn up elsewhere with a number for each place; [`Certificate::of`] has such numbers for a plant file.
//!
//! [`WidePlant::check`] tests a flow found elsewhere, of a plant with wide weights and readings, with a number for each place.
//!
//! A caller who has memory of its own uses [`Offices::draw_into`], [`Plant::write_into`], [`plant_from_transmitter_into`],
//! [`to_ranged_into`] and [`from_ranged_into`], which allocate nothing.
//!
//! The archive that this crate links has the version [`version`]; the crate takes any of its own major version whose minor version
//! is no lower.
#![deny(missing_docs)]
#![deny(unsafe_op_in_unsafe_fn)]

mod charges;
mod check;
mod layouts;
mod moves;
mod offices;
mod plant;
mod purchase;
pub mod raw;
mod refusal;
mod sheet;
mod transmitter;
mod visits;
mod wide;

pub use charges::{charges, Bill, Charge, MAX_RATE};
#[cfg(feature = "rules")]
pub use check::broken_rule;
pub use check::{check, Certificate, MAX_PLACES};
pub use layouts::{layouts, MAX_SURVEYED};
pub use moves::{from_ranged, from_ranged_into, to_ranged, to_ranged_into};
pub use offices::{Offices, OFFICES};
pub use plant::{Plant, Stream};
pub use purchase::{meters_to_buy, Purchase};
pub use raw::version;
pub use refusal::{Places, Refusal};
pub use sheet::{Record, Sheet, TotalKind, Verdict};
pub use transmitter::{plant_from_transmitter, plant_from_transmitter_into, Transmitter};
pub use visits::{visits, Visit};
pub use wide::{WidePlant, MAX_WIDE_FLOW, MAX_WIDE_NUMBER, MAX_WIDE_READING, MAX_WIDE_WEIGHT};

/// The version of this crate, a number like [`version`]'s: 10,000 is 1.0.0. Building it against an archive of another major
/// version, or of a lower minor one, fails.
pub const VERSION: u32 = 10_100;

/// The least sheet slice that is taken.
pub const SHEET_SIZE: usize = 880;

/// The least slice that the plant writer, the translator and the moves take; the longest plant file.
pub const FILE_SIZE: usize = 1636;

/// The most streams of a plant; the sheet reader, [`raw::meters_to_buy`], [`raw::visits`] and [`raw::charges`] take slices of at
/// least so many elements.
pub const MAX_STREAMS: usize = 96;
