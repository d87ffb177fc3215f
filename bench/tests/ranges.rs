// SPDX-License-Identifier: LicenseRef-Wengeludo
//! The plain engine against the reference of the differential tests, on drawn plants with ranges: the same number, counters,
//! count and bytes; and the marked places of a refusal 19 are tested. Neither needs the archive.
//!
//! WENGELUDO_INPUTS   how many inputs (default 100,000)
//! WENGELUDO_SEED     the first seed (default 1); input k has the seed WENGELUDO_SEED + k
//! WENGELUDO_PLANTS   how many plants of each kind and size that the benchmark draws (default 20)

#[allow(dead_code, unused_imports)]
#[path = "../../bindings/rust/tests/draw/mod.rs"]
mod draw;
#[allow(dead_code, unused_imports)]
#[path = "../../bindings/rust/tests/reference/mod.rs"]
mod reference;
#[allow(dead_code, unused_imports)]
#[path = "../../bindings/rust/tests/shrink/mod.rs"]
mod shrink;

use draw::{Call, Draw};
use wengeludo_bench::climb::AIMS;
use wengeludo_bench::engine::{balance_by_phases, balance_plant, Back, Unwatched};
use wengeludo_bench::plants::Kind;
use wengeludo_bench::report::{plants, SIZES};

/// A sheet call of the plain engine.
type Way = fn(&[u8], Back, &mut Unwatched) -> u8;

/// With the hint, and by phases alone.
const WAYS: [Way; 2] = [balance_plant, balance_by_phases];

/// Where the plain engine differs from the reference, either way; else the number returned.
fn compared(call: &Call) -> Result<u8, String> {
    let expected = reference::sheet_call(&call.file, call.office, &call.lasts, &call.slice);
    for way in WAYS {
        let (mut lasts, mut written, mut marked, mut slice) = (call.lasts.clone(), 77, u64::MAX, call.slice.clone());
        let office = call.office;
        let back = Back { office, lasts: &mut lasts, out: &mut slice, written: &mut written, marked: &mut marked };
        let returned = way(&call.file, back, &mut Unwatched);
        let wanted = (expected.returned, &expected.lasts, expected.written);
        if (returned, &lasts, written) != wanted {
            return Err(format!("{:?}, expected {wanted:?}", (returned, lasts, written)));
        }
        if slice != expected.slice {
            return Err("the slice".to_string());
        }
        let right = match reference::read(&call.file) {
            Ok(plant) if returned == 19 => reference::overfull(&plant, marked),
            _ => marked == 0,
        };
        if !right {
            return Err(format!("marked {marked:#x}"));
        }
    }
    Ok(expected.returned)
}

fn number(name: &str, other: u64) -> u64 {
    std::env::var(name).map_or(other, |text| text.replace('_', "").parse().unwrap_or_else(|_| panic!("{name}: {text}")))
}

#[test]
fn plain_engine_and_reference_agree() {
    let (inputs, seed) = (number("WENGELUDO_INPUTS", 100_000), number("WENGELUDO_SEED", 1));
    let mut counts = [0u64; 23];
    for k in 0..inputs {
        let call = Draw::new(seed + k).call();
        match compared(&call) {
            Ok(returned) => counts[usize::from(returned)] += 1,
            Err(difference) => {
                let small = shrink::smallest(call, &shrink::simpler_calls, &|c| compared(c).is_err());
                let again = compared(&small).unwrap_err();
                panic!("seed {}: {difference}\nsmallest input found: {again}\n{small}", seed + k);
            }
        }
    }
    println!("{inputs} inputs from seed {seed}, no difference; by the number returned: {counts:?}");
    assert!(inputs < 100_000 || [0, 18, 19, 22].into_iter().all(|number| counts[number] > 0), "some outcome never came up");
}

/// The first call of office 0.
fn first_call(file: Vec<u8>) -> Call {
    Call { file, office: 0, lasts: vec![0; 8], slice: vec![0xA5; 880] }
}

/// Plants of every kind and size that the benchmark draws.
#[test]
fn plants_of_the_benchmark() {
    let count = number("WENGELUDO_PLANTS", 20) as usize;
    for kind in Kind::ALL {
        for (units, streams) in SIZES {
            for plant in plants(kind, units, streams, count) {
                let call = first_call(plant.file());
                assert_eq!(compared(&call), Ok(if kind == Kind::Overfull { 19 } else { 0 }), "{call}");
            }
        }
    }
}

/// The worst plants that climbing found.
#[test]
fn recorded_plants() {
    for name in AIMS.map(|aim| aim.file) {
        let file = std::fs::read(std::path::Path::new(env!("CARGO_MANIFEST_DIR")).join(name)).expect("a recorded plant");
        let call = first_call(file);
        assert_eq!(compared(&call), Ok(0), "{name}: {call}");
    }
}
