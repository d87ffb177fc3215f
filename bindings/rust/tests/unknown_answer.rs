// SPDX-License-Identifier: LicenseRef-Wengeludo
//! An archive whose sheet reader hands over the first three bytes of a sheet as the kind of a stream, the kind of the total and the
//! verdict: what this crate does not know is never taken for something that it does. bindings/rust/test_archives.sh builds such an archive
//! and runs this test with it.

use wengeludo_balance::{Record, Refusal, Sheet, TotalKind, Verdict};

#[test]
#[ignore = "for an archive that answers anything: bash bindings/rust/test_archives.sh"]
fn what_is_not_known_is_refused() {
    let verdicts = [Verdict::Pass, Verdict::Fail, Verdict::None, Verdict::Close];
    let kinds = [(0x1E, TotalKind::Office), (0x1F, TotalKind::Plain)];
    let records = [(0x11, Record::Adjusted(7)), (0x12, Record::AsRead(7)), (0x13, Record::Given(7)), (0x14, Record::Withheld)];
    for byte in 0..=255u8 {
        let verdict = Sheet::from_bytes(&[0x11, 0x1E, byte]).map(|sheet| sheet.verdict);
        assert_eq!(verdict, verdicts.get(byte as usize).copied().ok_or(Refusal::SheetTotal));
        let total = Sheet::from_bytes(&[0x11, byte, 0]).map(|sheet| sheet.kind);
        assert_eq!(total, kinds.iter().find(|kind| kind.0 == byte).map(|kind| kind.1).ok_or(Refusal::SheetTotal));
        let record = Sheet::from_bytes(&[byte, 0x1E, 0]).map(|sheet| sheet.records);
        assert_eq!(record, records.iter().find(|one| one.0 == byte).map(|one| vec![one.1]).ok_or(Refusal::SheetRecord));
    }
}
