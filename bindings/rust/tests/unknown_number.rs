// SPDX-License-Identifier: LicenseRef-Wengeludo
//! An archive whose calls return a number that this crate does not know: no call is taken for done. bindings/rust/test_archives.sh
//! builds such an archive and runs this test with it.

use wengeludo_balance::{
    charges, check, from_ranged, layouts, meters_to_buy, plant_from_transmitter, to_ranged, visits, Certificate, Offices, Plant,
    Refusal, Sheet, WidePlant, SHEET_SIZE,
};

#[test]
#[ignore = "for an archive that returns 99: bash bindings/rust/test_archives.sh"]
fn nothing_is_taken_for_done() {
    let unknown = Refusal::Unknown(99);
    let file = [1, 1, 4, 0];
    let mut offices = Offices::from_last(7);
    assert_eq!(offices.draw(0, &file), Err(unknown));
    assert_eq!(offices.draw_into(0, &file, &mut [0; SHEET_SIZE]), Err(unknown));
    assert_eq!(Plant::new(1).file(), Err(unknown));
    assert_eq!(Plant::from_file(&file), Err(unknown));
    assert_eq!(Sheet::from_bytes(&[0x1F]), Err(unknown));
    assert_eq!(plant_from_transmitter(&file), Err(unknown));
    assert_eq!(to_ranged(&file), Err(unknown));
    assert_eq!(from_ranged(&file), Err(unknown));
    assert_eq!(meters_to_buy(&file, &[]), Err(unknown));
    assert_eq!(layouts(&file), Err(unknown));
    assert_eq!(visits(&file), Err(unknown));
    assert_eq!(charges(&file, &[]), Err(unknown));
    assert_eq!(check(&file, &[0x1F], &Certificate::default()), Err(unknown));
    assert_eq!(Certificate::of(&file), Err(unknown));
    assert_eq!(WidePlant::new(1).check(&[], &[0, 0]), Err(unknown));
    assert_eq!(unknown.to_string(), "refused 99: a number that this version does not know");
}
