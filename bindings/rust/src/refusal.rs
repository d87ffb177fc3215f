// SPDX-License-Identifier: LicenseRef-Wengeludo
//! Refusals.

use std::error::Error;
use std::fmt;

/// A set of places, the outside being place 0.
#[derive(Clone, Copy, Debug, Default, PartialEq, Eq, Hash)]
pub struct Places(pub(crate) u64);

impl Places {
    /// Whether a place is among them.
    pub fn has(self, place: u8) -> bool {
        place < 64 && self.0 >> place & 1 == 1
    }

    /// The places, in rising order.
    pub fn iter(self) -> impl Iterator<Item = u8> {
        (0..64).filter(move |&place| self.has(place))
    }
}

/// Why a call was refused. A refused call leaves every slice and all counters as they were.
///
/// A later version may have more of them, so a `match` has an arm for the rest. A number that this crate does not know, from an
/// archive that it was not made for, is [`Refusal::Unknown`]: nothing but 0 is ever taken for done.
#[derive(Clone, Copy, Debug, PartialEq, Eq, Hash)]
#[non_exhaustive]
pub enum Refusal {
    // refusals: enum, from tools/refusals.tsv
    /// A slice is too short: under 880 bytes for a sheet, 8 numbers for the offices, 1,636 bytes for a plant file, 96 elements
    /// for the plant reader, the sheet reader and lists of streams, 13 for the survey, 33 for the numbers of the places; for the
    /// check of a flow, fewer elements than streams, or numbers than places.
    SliceTooShort,
    /// The calling office's last sheet number is 4,294,967,295.
    NoSheetNumber,
    /// Bytes end where a record is due or inside a body.
    FileEnds,
    /// Kind not allowed at this place.
    Kind,
    /// A 97th stream; for the plant writer and the check of a flow, a count over 96.
    TooManyStreams,
    /// The number of units, n, is 0 or over 32.
    Units,
    /// From or to above n.
    Place,
    /// From equals to.
    SamePlace,
    /// Weight 0 or over 1,000; for the check of a flow, over 1,099,511,627,776.
    Weight,
    /// Reading outside -4,000,000 to 4,000,000; for the check of a flow, outside -1,099,511,627,776 to 1,099,511,627,776.
    Reading,
    /// End count differs from the streams read.
    EndCount,
    /// Bytes after the end record.
    AfterEnd,
    /// In a sheet, a record is missing, cut short, a 97th or of a wrong kind.
    SheetRecord,
    /// In a sheet, a field of the total is not allowed: an office over 7, number 0, degrees over 32 or a verdict that does not
    /// fit.
    SheetTotal,
    /// In a sheet, bytes after the total.
    AfterTotal,
    /// A transmitter's value is not finite.
    Value,
    /// A transmitter's deviation is no finite number above 0.
    Deviation,
    /// Low above high, or either outside -2,000,000,000 to 2,000,000,000; for the check of a flow, low above high.
    Range,
    /// No balanced flow lies within all ranges. The places that the sheet call marks must take in more than they can let out:
    /// every stream across their edge has a range, and the lows in sum to more than the highs out. Other calls mark none.
    NoFlow(Places),
    /// Moving home, a range is narrower than -2,000,000,000 to 2,000,000,000.
    Narrower,
    /// Prices are not one for each unmetered stream, or one is 0 or over 1,000,000.
    Prices,
    /// The office is above 7.
    NoOffice,
    /// More than the 12 streams of which layouts are surveyed.
    TooManyToSurvey,
    /// Rates are not one for each stream to the outside, or one is over 10,000.
    Rates,
    /// A stream to the outside is withheld, whatever its rate.
    ChargeWithheld,
    /// A sheet or a flow that is checked breaks a rule, a number of a place is missing, extra or past its limit, or the plant has
    /// no sheet.
    RuleBroken,
    // refusals: end of enum
    /// A number that this version does not know.
    Unknown(u8),
}

/// Number and text of each refusal.
// refusals: texts, from tools/refusals.tsv
const ALL: [(u8, Refusal, &str); 26] = [
    (
        1,
        Refusal::SliceTooShort,
        "a slice is too short: under 880 bytes for a sheet, 8 numbers for the offices, 1,636 bytes for a plant file, 96 elements for the plant reader, the sheet reader and lists of streams, 13 for the survey, 33 for the numbers of the places; for the check of a flow, fewer elements than streams, or numbers than places",
    ),
    (2, Refusal::NoSheetNumber, "the calling office's last sheet number is 4,294,967,295"),
    (3, Refusal::FileEnds, "bytes end where a record is due or inside a body"),
    (4, Refusal::Kind, "kind not allowed at this place"),
    (5, Refusal::TooManyStreams, "a 97th stream; for the plant writer and the check of a flow, a count over 96"),
    (6, Refusal::Units, "the number of units, n, is 0 or over 32"),
    (7, Refusal::Place, "from or to above n"),
    (8, Refusal::SamePlace, "from equals to"),
    (9, Refusal::Weight, "weight 0 or over 1,000; for the check of a flow, over 1,099,511,627,776"),
    (
        10,
        Refusal::Reading,
        "reading outside -4,000,000 to 4,000,000; for the check of a flow, outside -1,099,511,627,776 to 1,099,511,627,776",
    ),
    (11, Refusal::EndCount, "end count differs from the streams read"),
    (12, Refusal::AfterEnd, "bytes after the end record"),
    (13, Refusal::SheetRecord, "in a sheet, a record is missing, cut short, a 97th or of a wrong kind"),
    (
        14,
        Refusal::SheetTotal,
        "in a sheet, a field of the total is not allowed: an office over 7, number 0, degrees over 32 or a verdict that does not fit",
    ),
    (15, Refusal::AfterTotal, "in a sheet, bytes after the total"),
    (16, Refusal::Value, "a transmitter's value is not finite"),
    (17, Refusal::Deviation, "a transmitter's deviation is no finite number above 0"),
    (
        18,
        Refusal::Range,
        "low above high, or either outside -2,000,000,000 to 2,000,000,000; for the check of a flow, low above high",
    ),
    (19, Refusal::NoFlow(Places(0)), "no balanced flow lies within all ranges"),
    (20, Refusal::Narrower, "moving home, a range is narrower than -2,000,000,000 to 2,000,000,000"),
    (21, Refusal::Prices, "prices are not one for each unmetered stream, or one is 0 or over 1,000,000"),
    (22, Refusal::NoOffice, "the office is above 7"),
    (23, Refusal::TooManyToSurvey, "more than the 12 streams of which layouts are surveyed"),
    (24, Refusal::Rates, "rates are not one for each stream to the outside, or one is over 10,000"),
    (25, Refusal::ChargeWithheld, "a stream to the outside is withheld, whatever its rate"),
    (
        26,
        Refusal::RuleBroken,
        "a sheet or a flow that is checked breaks a rule, a number of a place is missing, extra or past its limit, or the plant has no sheet",
    ),
];

const UNKNOWN: &str = "a number that this version does not know";
// refusals: end of texts

impl Refusal {
    fn entry(self) -> (u8, &'static str) {
        let bare = if let Refusal::NoFlow(_) = self { Refusal::NoFlow(Places(0)) } else { self };
        match (ALL.iter().find(|entry| entry.1 == bare), self) {
            (Some(&(number, _, text)), _) => (number, text),
            (None, Refusal::Unknown(number)) => (number, UNKNOWN),
            (None, _) => unreachable!("every refusal is in the table"),
        }
    }

    /// The refusal's number.
    pub fn number(self) -> u8 {
        self.entry().0
    }

    /// What it says, as a sentence without a full stop.
    pub fn text(self) -> &'static str {
        self.entry().1
    }

    /// The refusal of a number, 19 without its places; none for 0, which is no refusal.
    pub fn from_number(number: u8) -> Option<Refusal> {
        match number {
            0 => None,
            _ => Some(ALL.iter().find(|entry| entry.0 == number).map_or(Refusal::Unknown(number), |entry| entry.1)),
        }
    }

    /// What a call returned: 0, or a refusal.
    pub(crate) fn check(number: u8) -> Result<(), Refusal> {
        match Refusal::from_number(number) {
            None => Ok(()),
            Some(refusal) => Err(refusal),
        }
    }

    /// What a sheet call returned, and the places that it marked.
    pub(crate) fn check_marked(number: u8, marked: u64) -> Result<(), Refusal> {
        match Refusal::check(number) {
            Err(Refusal::NoFlow(_)) => Err(Refusal::NoFlow(Places(marked))),
            other => other,
        }
    }
}

impl fmt::Display for Refusal {
    fn fmt(&self, f: &mut fmt::Formatter<'_>) -> fmt::Result {
        let (number, text) = self.entry();
        write!(f, "refused {number}: {text}")?;
        if let Refusal::NoFlow(marked @ Places(1..)) = self {
            let places: Vec<String> = marked.iter().map(|place| place.to_string()).collect();
            write!(f, "; too much goes into places {}", places.join(", "))?;
        }
        Ok(())
    }
}

impl Error for Refusal {}

#[cfg(test)]
mod tests {
    use super::*;

    #[test]
    fn numbers_there_and_back() {
        for (number, refusal, text) in ALL {
            assert_eq!(Refusal::from_number(number), Some(refusal));
            assert_eq!((refusal.number(), refusal.text()), (number, text));
        }
        assert_eq!(Refusal::from_number(0), None);
        assert_eq!(Refusal::NoFlow(Places(5)).number(), 19);
    }

    #[test]
    fn message() {
        assert_eq!(Refusal::SamePlace.to_string(), "refused 8: from equals to");
        assert_eq!(Refusal::Value.to_string(), "refused 16: a transmitter's value is not finite");
        let none = Refusal::check_marked(19, 0b101).unwrap_err();
        let text = "refused 19: no balanced flow lies within all ranges; too much goes into places 0, 2";
        assert_eq!(none.to_string(), text);
        assert_eq!(Refusal::check(19).unwrap_err().to_string(), "refused 19: no balanced flow lies within all ranges");
        assert_eq!(Refusal::check_marked(8, 0), Err(Refusal::SamePlace));
    }

    #[test]
    fn only_0_is_done() {
        assert_eq!(Refusal::check(0), Ok(()));
        for number in 1..=255 {
            let refusal = Refusal::check(number).unwrap_err();
            assert_eq!(refusal.number(), number);
            assert_eq!(refusal == Refusal::Unknown(number), ALL.iter().all(|entry| entry.0 != number));
        }
        assert_eq!(Refusal::Unknown(99).to_string(), "refused 99: a number that this version does not know");
    }

    #[test]
    fn places() {
        let places = Places(1 << 32 | 5);
        assert_eq!(places.iter().collect::<Vec<_>>(), [0, 2, 32]);
        assert!(!places.has(1) && !places.has(64));
    }
}
