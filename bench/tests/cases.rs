// SPDX-License-Identifier: LicenseRef-Wengeludo
//! The plain engine and the reference of the differential tests on the committed cases of the sheet call, of office 0 and of any
//! office, which a third solver made (crates/vectors/data; reference/cases.py says what a case looks like).

#[allow(dead_code, unused_imports)]
#[path = "../../bindings/rust/tests/reference/mod.rs"]
mod reference;

use std::path::Path;
use wengeludo_bench::engine::{balance_by_phases, balance_plant, Back, Unwatched};

const HEAD: usize = 20;
const SHEET_CALL: u8 = 1;
const OFFICE_CALL: u8 = 16;

/// The bytes of the eight last numbers, in a case of any office.
const LASTS: usize = 32;

/// A case: what is called, the office, the file, the last sheet numbers, the slice before the call; what comes back.
#[derive(Default)]
struct Case<'a> {
    call: u8,
    office: u8,
    file: &'a [u8],
    lasts: Vec<u32>,
    before: Vec<u8>,
    number: u8,
    written: usize,
    lasts_back: Vec<u32>,
    after: Vec<u8>,
}

/// Eight last numbers, 4 bytes each.
fn numbers(bytes: &[u8]) -> Vec<u32> {
    bytes[..LASTS].chunks(4).map(|four| u32::from_be_bytes(four.try_into().unwrap())).collect()
}

/// The last number of office 0 among eight.
fn of_office_0(last: u32) -> Vec<u32> {
    vec![last, 0, 0, 0, 0, 0, 0, 0]
}

/// The first case of some bytes, and the bytes after it.
fn split(bytes: &[u8]) -> (Case<'_>, &[u8]) {
    let pair = |at: usize| usize::from(u16::from_be_bytes([bytes[at], bytes[at + 1]]));
    let four = |at: usize| u32::from_be_bytes([bytes[at], bytes[at + 1], bytes[at + 2], bytes[at + 3]]);
    let (file, known) = (&bytes[HEAD..HEAD + pair(2)], &bytes[HEAD + pair(2)..][..pair(4)]);
    let before = vec![bytes[1]; pair(6)];
    let mut after = before.clone();
    after[..known.len()].copy_from_slice(known);
    let told = Case { call: bytes[0], number: bytes[12], written: pair(14), ..Case::default() };
    let case = if bytes[0] == OFFICE_CALL {
        let (lasts, lasts_back) = (numbers(&file[1..]), numbers(&after));
        let (before, after) = (before[LASTS..].to_vec(), after[LASTS..].to_vec());
        Case { office: file[0], file: &file[1 + LASTS..], lasts, before, lasts_back, after, ..told }
    } else {
        Case { office: 0, file, lasts: of_office_0(four(8)), before, lasts_back: of_office_0(four(16)), after, ..told }
    };
    (case, &bytes[HEAD + pair(2) + pair(4)..])
}

/// What a way leaves: number, counters, count, slice, and the marked places.
type Outcome = (u8, Vec<u32>, usize, Vec<u8>, u64);

/// What the three ways leave.
fn outcomes(case: &Case) -> [Outcome; 3] {
    let plain = |way: fn(&[u8], Back, &mut Unwatched) -> u8| {
        let (mut lasts, mut written, mut marked, mut out) = (case.lasts.clone(), 77, u64::MAX, case.before.clone());
        let office = case.office;
        let back = Back { office, lasts: &mut lasts, out: &mut out, written: &mut written, marked: &mut marked };
        let number = way(case.file, back, &mut Unwatched);
        (number, lasts, written, out, marked)
    };
    let other = reference::sheet_call(case.file, case.office, &case.lasts, &case.before);
    let other = (other.returned, other.lasts, other.written, other.slice, other.marked);
    [plain(balance_plant), plain(balance_by_phases), other]
}

#[test]
fn committed_cases() {
    let data = Path::new(env!("CARGO_MANIFEST_DIR")).join("../crates/vectors/data");
    let (mut cases, mut of_any_office, mut none_in_range) = (0, 0, 0);
    for entry in std::fs::read_dir(data).expect("the folder of cases") {
        let path = entry.expect("a file of cases").path();
        let bytes = std::fs::read(&path).expect("a file of cases");
        let mut rest = &bytes[..];
        while !rest.is_empty() {
            let case;
            (case, rest) = split(rest);
            if case.call != SHEET_CALL && case.call != OFFICE_CALL {
                continue;
            }
            cases += 1;
            of_any_office += usize::from(case.call == OFFICE_CALL);
            none_in_range += usize::from(case.number == 19);
            for (number, lasts, written, slice, marked) in outcomes(&case) {
                let found = (number, &lasts, written, &slice);
                assert_eq!(
                    found,
                    (case.number, &case.lasts_back, case.written, &case.after),
                    "{}: {:02X?}",
                    path.display(),
                    case.file
                );
                let right = match reference::read(case.file) {
                    Ok(plant) if number == 19 => reference::overfull(&plant, marked),
                    _ => marked == 0,
                };
                assert!(right, "{}: marked {marked:#x}: {:02X?}", path.display(), case.file);
            }
        }
    }
    println!("{cases} cases of the sheet call, {of_any_office} of them of any office, {none_in_range} with no flow in range");
    assert!(cases > 2_000 && of_any_office > 500 && none_in_range > 150, "cases are missing");
}
