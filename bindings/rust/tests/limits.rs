// SPDX-License-Identifier: LicenseRef-Wengeludo
//! Every limit of the crate against the archive's calls: taken at it, refused beyond it; the last place of an overfull set; every
//! verdict and kind.

use wengeludo_balance::{
    charges, layouts, meters_to_buy, plant_from_transmitter, to_ranged, visits, Certificate, Offices, Plant, Record, Refusal, Sheet,
    TotalKind, Transmitter, Verdict, FILE_SIZE, MAX_PLACES, MAX_RATE, MAX_STREAMS, MAX_SURVEYED, OFFICES, SHEET_SIZE,
};

/// A plant of one unit with so many metered streams, to it and from it by turns, each with a range.
fn full(streams: usize) -> Plant {
    (0..streams).fold(Plant::new(1), |plant, k| plant.metered_within((k % 2) as u8, (1 - k % 2) as u8, 1, 0, 0, 5))
}

/// A plant of one unit with so many streams without meters into it.
fn bare(streams: usize) -> Plant {
    (0..streams).fold(Plant::new(1), |plant, _| plant.unmetered(0, 1))
}

#[test]
fn streams_and_slices() {
    let file = full(MAX_STREAMS).file().unwrap();
    assert_eq!(file.len(), FILE_SIZE);
    assert_eq!(full(MAX_STREAMS + 1).file(), Err(Refusal::TooManyStreams));
    assert_eq!(full(1).write_into(&mut [0; FILE_SIZE - 1]), Err(Refusal::SliceTooShort));
    assert_eq!(to_ranged(&file).map(|moved| moved.len()), Ok(FILE_SIZE));
    let mut offices = Offices::default();
    assert_eq!(offices.draw_into(OFFICES as u8 - 1, &file, &mut [0; SHEET_SIZE]), Ok(SHEET_SIZE));
    assert_eq!(offices.draw_into(0, &file, &mut [0; SHEET_SIZE - 1]), Err(Refusal::SliceTooShort));
    assert_eq!(offices.draw(OFFICES as u8, &file), Err(Refusal::NoOffice));
    assert_eq!(offices.lasts()[OFFICES - 1], 1);
    assert_eq!(offices.draw(0, &file).unwrap().records.len(), MAX_STREAMS);
    assert_eq!(visits(&file).unwrap().len(), MAX_STREAMS);
    let longer = [&file[..], &[0]].concat();
    assert_eq!(offices.draw(0, &longer), Err(Refusal::AfterEnd));
}

#[test]
fn lists() {
    let file = bare(MAX_STREAMS).file().unwrap();
    let bought = meters_to_buy(&file, &[1; MAX_STREAMS]).unwrap();
    assert_eq!((bought.streams.len(), bought.price), (MAX_STREAMS - 1, MAX_STREAMS as u32 - 1));
    assert_eq!(meters_to_buy(&file, &[1; MAX_STREAMS + 1]), Err(Refusal::Prices));
    let outward = (0..MAX_STREAMS).fold(Plant::new(1), |plant, _| plant.metered(1, 0, 1, 0)).file().unwrap();
    assert_eq!(charges(&outward, &[MAX_RATE; MAX_STREAMS]).unwrap().charges.len(), MAX_STREAMS);
    assert_eq!(charges(&outward, &[MAX_RATE + 1; MAX_STREAMS]), Err(Refusal::Rates));
    assert_eq!(layouts(&bare(MAX_SURVEYED).file().unwrap()).unwrap().len(), MAX_SURVEYED + 1);
    assert_eq!(layouts(&bare(MAX_SURVEYED + 1).file().unwrap()), Err(Refusal::TooManyToSurvey));
    assert_eq!(Certificate::of(&Plant::new(MAX_PLACES as u8 - 1).file().unwrap()).unwrap().numbers.len(), MAX_PLACES);
    assert_eq!(Plant::new(MAX_PLACES as u8).file(), Err(Refusal::Units));
}

#[test]
fn transmitters() {
    let signals = |count| (0..count).fold(Transmitter::new(1), |t, _| t.measured(0, 1, 100.0, 10.0)).file();
    assert_eq!(signals(MAX_STREAMS).len(), 1_444);
    assert!(plant_from_transmitter(&signals(MAX_STREAMS)).is_ok());
    assert_eq!(plant_from_transmitter(&signals(MAX_STREAMS + 1)), Err(Refusal::TooManyStreams));
    for count in [255, 256, 257, 300] {
        assert_eq!(signals(count).last(), Some(&255));
    }
}

#[test]
fn the_last_place_of_an_overfull_set() {
    let last = MAX_PLACES as u8 - 1;
    let file = Plant::new(last).metered_within(0, last, 1, 5, 1, 9).file().unwrap();
    match Offices::default().draw(0, &file) {
        Err(Refusal::NoFlow(marked)) => {
            assert!(marked.has(last) && !marked.has(0));
            assert_eq!(marked.iter().last(), Some(last));
            assert_eq!(Refusal::NoFlow(marked).to_string().split(' ').last(), Some("32"), "{}", Refusal::NoFlow(marked));
        }
        other => panic!("{other:?}"),
    }
}

/// A ring from the outside through so many units and back, shut at 0, with this cost.
fn ring(units: u8, cost: u32) -> Sheet {
    let root = (0i32..).find(|r| ((r + 1) * (r + 1)) as u32 > cost).unwrap();
    let rest = (cost - (root * root) as u32) as u16;
    let plant = (0..=units).fold(Plant::new(units), |plant, k| {
        let to = if k < units { k + 1 } else { 0 };
        match k {
            0 => plant.metered_within(0, to, 1, root, 0, 0),
            1 if rest > 0 => plant.metered_within(1, to, rest, 1, 0, 0),
            _ => plant.metered_within(k, to, 1, 0, 0, 0),
        }
    });
    Offices::default().draw(0, &plant.file().unwrap()).unwrap()
}

#[test]
fn verdicts_and_kinds() {
    let at = ring(1, 3_841);
    assert_eq!((at.cost, at.degrees, at.verdict, at.kind), (3_841, 1, Verdict::Pass, TotalKind::Office));
    assert_eq!(ring(1, 3_842).verdict, Verdict::Close);
    assert_eq!(ring(1, 4_900).verdict, Verdict::Fail);
    assert_eq!((ring(32, 46_194).verdict, ring(32, 46_195).verdict), (Verdict::Pass, Verdict::Close));
    let plant = Plant::new(3).metered(0, 1, 1, 7).unmetered(1, 0).unmetered(2, 3).unmetered(2, 3);
    let sheet = Offices::default().draw(0, &plant.file().unwrap()).unwrap();
    assert_eq!(sheet.records, [Record::AsRead(7), Record::Given(7), Record::Withheld, Record::Withheld]);
    assert_eq!((sheet.verdict, sheet.degrees), (Verdict::None, 0));
    assert_eq!(sheet.to_string(), "1 R 7\n2 G 7\n3 W -\n4 W -\ntotal 1 0 0 none\n");
}
