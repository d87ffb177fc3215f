// SPDX-License-Identifier: LicenseRef-Wengeludo
//! Sheets.

use crate::raw::{self, Total};
use crate::refusal::Refusal;
use crate::MAX_STREAMS;
use std::fmt;

/// A stream's record on a sheet: its class, and its flow in kg per hour where there is one.
#[derive(Clone, Copy, Debug, PartialEq, Eq, Hash)]
pub enum Record {
    /// A: metered and corrected.
    Adjusted(i64),
    /// R: metered, and its flow is its reading, or the nearest value in range to it.
    AsRead(i64),
    /// G: unmetered, and the metered flows force its flow.
    Given(i64),
    /// W: unmetered, and nothing forces its flow.
    Withheld,
}

impl Record {
    /// The class letter: A, R, G or W.
    pub fn letter(self) -> char {
        match self {
            Record::Adjusted(_) => 'A',
            Record::AsRead(_) => 'R',
            Record::Given(_) => 'G',
            Record::Withheld => 'W',
        }
    }

    /// The flow; none where it is withheld.
    pub fn flow(self) -> Option<i64> {
        match self {
            Record::Adjusted(flow) | Record::AsRead(flow) | Record::Given(flow) => Some(flow),
            Record::Withheld => None,
        }
    }
}

/// The verdict of the test. A later version may have more of them.
#[derive(Clone, Copy, Debug, PartialEq, Eq, Hash)]
#[non_exhaustive]
pub enum Verdict {
    /// The cost is at most the critical value.
    Pass,
    /// The cost is above it by more than a quarter of the weights of the A streams: no balanced flow within the ranges, in
    /// fractions either, costs at most the critical value.
    Fail,
    /// There are no degrees to test.
    None,
    /// The cost is above it, but by no more than that: rounding to whole kilograms alone may have taken it there.
    Close,
}

/// The kind of a sheet's total.
#[derive(Clone, Copy, Debug, PartialEq, Eq, Hash)]
pub enum TotalKind {
    /// 0x1E: with the office that drew the sheet.
    Office,
    /// 0x1F: without, on sheets drawn before there were offices; their office is 0. None is drawn any more.
    Plain,
}

/// A balance sheet.
#[derive(Clone, Debug, PartialEq, Eq, Hash)]
pub struct Sheet {
    /// A record for each stream, in the order of the file.
    pub records: Vec<Record>,
    /// The kind of the total.
    pub kind: TotalKind,
    /// The office that drew the sheet, 0 where the total is plain.
    pub office: u8,
    /// The sheet's number among those of its office.
    pub number: u32,
    /// The cost, in thousandths; one above the greatest number of 64 bits is written as that number.
    pub cost: u64,
    /// The degrees.
    pub degrees: u8,
    /// The verdict.
    pub verdict: Verdict,
}

impl Sheet {
    /// Reads a kept sheet from its bytes, as [`Offices::draw_into`](crate::Offices::draw_into) writes them, or as they were written
    /// before there were offices; or says why they are not a whole sheet ([`Refusal::SheetRecord`], [`Refusal::SheetTotal`],
    /// [`Refusal::AfterTotal`]).
    ///
    /// ```
    /// use wengeludo_balance::{Refusal, Sheet, TotalKind};
    /// let bytes = [0x14, 0x1E, 3, 0, 0, 0, 7, 0, 0, 0, 0, 0, 0, 0, 0, 0, 2];
    /// let sheet = Sheet::from_bytes(&bytes)?;
    /// assert_eq!((sheet.kind, sheet.office, sheet.number), (TotalKind::Office, 3, 7));
    /// assert_eq!(sheet.to_string(), "1 W -\ntotal 7 0 0 none\n");
    /// assert_eq!(Sheet::from_bytes(&bytes[..16]), Err(Refusal::SheetRecord));
    ///
    /// let before = [0x14, 0x1F, 0, 0, 0, 7, 0, 0, 0, 0, 0, 0, 0, 0, 0, 2];
    /// assert_eq!(Sheet::from_bytes(&before)?, Sheet { kind: TotalKind::Plain, office: 0, ..sheet });
    /// # Ok::<(), Refusal>(())
    /// ```
    pub fn from_bytes(bytes: &[u8]) -> Result<Sheet, Refusal> {
        let (mut kinds, mut flows, mut total) = ([0; MAX_STREAMS], [0; MAX_STREAMS], Total::default());
        Refusal::check(raw::read_sheet(bytes, &mut kinds, &mut flows, &mut total))?;
        // What no sheet reader hands over is not taken for something that it does.
        let record = |(kind, flow): (&u8, &i64)| match kind {
            0x11 => Ok(Record::Adjusted(*flow)),
            0x12 => Ok(Record::AsRead(*flow)),
            0x13 => Ok(Record::Given(*flow)),
            0x14 => Ok(Record::Withheld),
            _ => Err(Refusal::SheetRecord),
        };
        Ok(Sheet {
            records: kinds.iter().zip(&flows).take(total.count).map(record).collect::<Result<_, _>>()?,
            kind: match total.kind {
                0x1E => TotalKind::Office,
                0x1F => TotalKind::Plain,
                _ => return Err(Refusal::SheetTotal),
            },
            office: total.office,
            number: total.sheet,
            cost: total.cost,
            degrees: total.degrees,
            verdict: match total.verdict {
                0 => Verdict::Pass,
                1 => Verdict::Fail,
                2 => Verdict::None,
                3 => Verdict::Close,
                _ => return Err(Refusal::SheetTotal),
            },
        })
    }
}

/// The listing: per stream its number, class letter, flow or `-`; then the total.
impl fmt::Display for Sheet {
    fn fmt(&self, f: &mut fmt::Formatter<'_>) -> fmt::Result {
        for (i, record) in self.records.iter().enumerate() {
            write!(f, "{} {} ", i + 1, record.letter())?;
            match record.flow() {
                Some(flow) => writeln!(f, "{flow}")?,
                None => writeln!(f, "-")?,
            }
        }
        let verdict = match self.verdict {
            Verdict::Pass => "pass",
            Verdict::Fail => "fail",
            Verdict::None => "none",
            Verdict::Close => "close",
        };
        writeln!(f, "total {} {} {} {}", self.number, self.cost, self.degrees, verdict)
    }
}
