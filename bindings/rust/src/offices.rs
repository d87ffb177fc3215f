// SPDX-License-Identifier: LicenseRef-Wengeludo
//! The offices that draw sheets.

use crate::raw;
use crate::refusal::Refusal;
use crate::sheet::Sheet;
use crate::SHEET_SIZE;

/// The offices that draw sheets, 0 to 7.
pub const OFFICES: usize = 8;

/// The last sheet numbers of the offices, each office's its own. Only drawing a sheet changes one: that of the office that draws it,
/// by one.
#[derive(Clone, Copy, Debug, Default, PartialEq, Eq, Hash)]
pub struct Offices {
    lasts: [u32; OFFICES],
}

impl Offices {
    /// Who had one last sheet number before there were offices goes on with these: it passes to office 0, and the other seven begin
    /// at 0. The sheets of office 0 follow on in number.
    pub fn from_last(last: u32) -> Offices {
        Offices { lasts: [last, 0, 0, 0, 0, 0, 0, 0] }
    }

    /// The offices with these last sheet numbers, as [`Offices::lasts`] gave them.
    pub fn from_lasts(lasts: [u32; OFFICES]) -> Offices {
        Offices { lasts }
    }

    /// The last sheet number of each office, 0 before its first sheet; to be kept, and handed to [`Offices::from_lasts`] later.
    pub fn lasts(&self) -> [u32; OFFICES] {
        self.lasts
    }

    /// Balances a plant file, and draws its sheet for an office under its next number. Where the call is refused, all last numbers
    /// are as they were; an office above 7 is refused ([`Refusal::NoOffice`]) as any other call is.
    ///
    /// ```
    /// use wengeludo_balance::{Offices, Plant, Refusal};
    /// let mut offices = Offices::from_last(7);
    /// assert_eq!(offices.draw(0, &[1, 1, 4, 1]), Err(Refusal::EndCount));
    /// assert_eq!(offices.draw(8, &[1, 1, 4, 0]), Err(Refusal::NoOffice));
    /// // A dead end that takes in 1 at least.
    /// let refused = offices.draw(0, &Plant::new(1).metered_within(0, 1, 10, 5, 1, 9).file()?);
    /// assert!(matches!(refused, Err(Refusal::NoFlow(marked)) if marked.has(1) && !marked.has(0)));
    /// assert_eq!(offices, Offices::from_last(7));
    /// assert_eq!(offices.draw(0, &[1, 1, 4, 0])?.to_string(), "total 8 0 0 none\n");
    /// assert_eq!(offices.draw(3, &[1, 1, 4, 0])?.to_string(), "total 1 0 0 none\n");
    /// assert_eq!(offices.lasts(), [8, 0, 0, 1, 0, 0, 0, 0]);
    /// # Ok::<(), Refusal>(())
    /// ```
    pub fn draw(&mut self, office: u8, file: &[u8]) -> Result<Sheet, Refusal> {
        let mut bytes = [0; SHEET_SIZE];
        let written = self.draw_into(office, file, &mut bytes)?;
        Sheet::from_bytes(&bytes[..written])
    }

    /// As [`Offices::draw`], into a slice of at least [`SHEET_SIZE`] bytes; says how many the sheet takes. The bytes past it keep
    /// their values; where the call is refused, all do. Nothing is allocated.
    pub fn draw_into(&mut self, office: u8, file: &[u8], sheet: &mut [u8]) -> Result<usize, Refusal> {
        let (mut written, mut marked) = (0, 0);
        let number = raw::balance_plant(file, office, &mut self.lasts, sheet, &mut written, &mut marked);
        Refusal::check_marked(number, marked)?;
        Ok(written)
    }
}
