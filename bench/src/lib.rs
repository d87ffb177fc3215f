// SPDX-License-Identifier: LicenseRef-Wengeludo
//! The benchmark of the sheet call: archives of the library beside the same algorithm in plain Rust, a real-number solve and
//! other libraries.

pub mod climb;
pub mod contestants;
pub mod draws;
pub mod engine;
pub mod floor;
pub mod load;
pub mod plants;
pub mod plot;
pub mod report;
pub mod sequence;
pub mod summary;
